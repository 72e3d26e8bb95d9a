//! The filters of examples/c, loaded and run.

use bpf::{
    Error, Filter, Form, Hardening, Instruction, Order, Rewriting, Wish, certify, convert, explain,
    harden, infer,
};
use std::num::NonZeroU32;

const PORT: (&[u8], &[u8]) = (
    include_bytes!("../../../c/port.img"),
    include_bytes!("../../../c/port.cert"),
);

/// A block of 128 bytes: a frame's length, the frame, zeros.
fn block_of(frame: &[u8]) -> Vec<u8> {
    let mut block = (frame.len() as u64).to_le_bytes().to_vec();
    block.extend(frame);
    block.resize(128, 0);
    block
}

/// An Ethernet frame of IPv4 and TCP to a port.
fn frame_to(port: u16) -> Vec<u8> {
    let mut frame = vec![0; 60];
    frame[12..15].copy_from_slice(&[8, 0, 0x45]);
    frame[23] = 6;
    frame[36..38].copy_from_slice(&port.to_be_bytes());
    frame
}

fn port() -> Filter {
    Filter::load(PORT.0, PORT.1, Order::Little, 1000).unwrap()
}

#[test]
fn runs_in_threads() {
    let filter = port();
    std::thread::scope(|scope| {
        for number in [80, 443, 444] {
            let filter = &filter;
            scope.spawn(move || {
                let want = u64::from(number == 443);
                assert_eq!(filter.run(&block_of(&frame_to(number))), Some(want));
            });
        }
    });
}

#[test]
fn takes_contexts_of_its_lengths_alone() {
    let filter = port();
    assert_eq!((filter.verdict().least, filter.verdict().most), (128, 128));
    assert_eq!(filter.run(&[0; 127]), None);
    assert_eq!(filter.run(&[0; 128]), Some(0));
    assert_eq!(filter.run(&[0; 129]), None);
}

#[test]
fn tells_why_it_is_not_loaded() {
    let error = |image, certificate, greatest| {
        let loaded = Filter::load(image, certificate, Order::Little, greatest);
        loaded.err().map(|error| error.to_string()).unwrap()
    };
    let bound = port().verdict().bound;
    assert_eq!(
        error(PORT.0, PORT.1, bound - 1),
        format!(
            "a run may take {bound} instructions, and this host pays for {} at most",
            bound - 1
        )
    );
    assert!(error(PORT.0, &[], bound).starts_with("refused by K1 at line 1: "));
    assert!(error(&[0; 8], PORT.1, bound).starts_with("refused by E2 at slot 0: "));
    assert!(matches!(
        Filter::load(PORT.0, PORT.1, Order::Big, bound),
        Err(Error::Refused(_))
    ));
}

#[test]
fn explains_what_is_known_and_why_it_is_refused() {
    let known = explain(PORT.0, PORT.1, Order::Little).unwrap();
    assert!(known.contains("\naccepted: at most ") && known.ends_with('\n'));
    let refused = explain(PORT.0, &[], Order::Little).unwrap();
    assert!(refused.starts_with("K1 at line 1: the text ends here without `end`"));
}

#[test]
fn proposes_certificates() {
    for deep in [false, true] {
        let proposed = infer(PORT.0, Order::Little, 128, 128, deep).unwrap();
        let filter = Filter::load(PORT.0, &proposed, Order::Little, 1000).unwrap();
        assert_eq!(filter.run(&block_of(&frame_to(443))), Some(1));
    }
    let short = infer(PORT.0, Order::Little, 0, 0, true)
        .unwrap_err()
        .to_string();
    assert!(
        short.starts_with("refused by I4 at slot ") && short.contains(": C5: an access "),
        "{short}"
    );
    let no_range = infer(PORT.0, Order::Little, 1, 0, true).unwrap_err();
    assert!(matches!(no_range, Error::Answer(-2)) && no_range.to_string().contains("a length"));
}

#[test]
fn hardens_images() {
    let asked = Hardening::default();
    assert_eq!(harden(PORT.0, Order::Little, 128, &asked).unwrap(), PORT.0);
    // Pointers that are put in order: offsets with their signs have the same order.
    let ordered: Vec<u8> = [
        [0xb7, 0, 0, 0, 0, 0, 0, 0],
        [0xbf, 0x12, 0, 0, 0, 0, 0, 0],
        [0x07, 2, 0, 0, 4, 0, 0, 0],
        [0x2d, 0x12, 1, 0, 0, 0, 0, 0],
        [0x95, 0, 0, 0, 0, 0, 0, 0],
        [0xb7, 0, 0, 0, 1, 0, 0, 0],
        [0x95, 0, 0, 0, 0, 0, 0, 0],
    ]
    .concat();
    assert!(harden(&ordered, Order::Little, 16, &asked).unwrap() != ordered);
    // A pointer that is compared with a number: the meaning isn't shown to be kept.
    let compared: Vec<u8> = [
        [0xb7, 0, 0, 0, 0, 0, 0, 0],
        [0x71, 0x13, 0, 0, 0, 0, 0, 0],
        [0x0f, 0x13, 0, 0, 0, 0, 0, 0],
        [0x15, 3, 1, 0, 5, 0, 0, 0],
        [0x71, 0x30, 0, 0, 0, 0, 0, 0],
        [0x95, 0, 0, 0, 0, 0, 0, 0],
    ]
    .concat();
    let why = harden(&compared, Order::Little, 16, &asked).unwrap_err();
    assert!(
        why.to_string().starts_with("refused by H13 at slot 3: ")
            && why.to_string().contains(": M5: the instruction reads "),
        "{why}"
    );
    let unproved = Hardening {
        unproved: true,
        ..asked
    };
    assert!(harden(&compared, Order::Little, 16, &unproved).unwrap() != compared);
}

#[test]
fn certifies_images() {
    let wish = Wish::default();
    let kept = certify(PORT.0, Order::Little, 128, &wish).unwrap();
    assert_eq!((kept.image.as_slice(), kept.rewriting), (PORT.0, None));
    let filter = Filter::load(&kept.image, &kept.certificate, Order::Little, kept.bound).unwrap();
    assert_eq!(filter.run(&block_of(&frame_to(443))), Some(1));
    // The byte at an offset that the context's first one tells: there is a test, and a trap.
    let nth: Vec<u8> = [
        [0x71, 0x12, 0, 0, 0, 0, 0, 0],
        [0x0f, 0x21, 0, 0, 0, 0, 0, 0],
        [0x71, 0x10, 0, 0, 0, 0, 0, 0],
        [0x95, 0, 0, 0, 0, 0, 0, 0],
    ]
    .concat();
    let asked = Wish {
        turns: NonZeroU32::new(3),
        otherwise: 7,
        ..wish
    };
    let made = certify(&nth, Order::Little, 16, &asked).unwrap();
    let hardened = Rewriting {
        turns: None,
        untouched: 0,
        is_shown: true,
    };
    assert_eq!(made.rewriting, Some(hardened));
    let filter = Filter::load(&made.image, &made.certificate, Order::Little, made.bound).unwrap();
    let context = |first| [&[first][..], &[5; 15]].concat();
    assert_eq!(filter.run(&context(9)), Some(5));
    assert_eq!(filter.run(&context(16)), Some(7));
    let poor = Wish { bound: 1, ..wish };
    let why = certify(PORT.0, Order::Little, 128, &poor).unwrap_err();
    assert!(
        why.to_string().starts_with("refused by H14 at slot 0: ")
            && why.to_string().ends_with(": 37 instructions"),
        "{why}"
    );
}

#[test]
fn converts_filters() {
    // `ip`, as tcpdump compiles it for Ethernet.
    let ip = [
        (0x28, 0, 0, 12),
        (0x15, 0, 1, 0x800),
        (6, 0, 0, 262_144),
        (6, 0, 0, 0),
    ]
    .map(|(code, jt, jf, k)| Instruction { code, jt, jf, k });
    let made = convert(&ip, Form::Blocks, 128, Order::Little).unwrap();
    let filter = Filter::load(&made.image, &made.certificate, Order::Little, made.bound).unwrap();
    assert_eq!(filter.run(&block_of(&frame_to(443))), Some(262_144));
    assert_eq!(filter.run(&block_of(&[0; 60])), Some(0));
    let why = convert(&ip[..3], Form::Blocks, 128, Order::Little).unwrap_err();
    assert!(
        why.to_string()
            .starts_with("refused by B5 at instruction 1: it leads past"),
        "{why}"
    );
    assert!(matches!(
        convert(&ip, Form::Seccomp, 63, Order::Little),
        Err(Error::Answer(-2))
    ));
    let seccomp = convert(&ip[2..3], Form::Seccomp, 64, Order::Big).unwrap();
    assert_eq!(seccomp.bound, 2);
}
