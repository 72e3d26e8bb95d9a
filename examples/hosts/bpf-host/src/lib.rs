//! The library's calls for hosts as safe functions: what a call asks of its caller is kept by types.

use std::ffi::c_void;
use std::fmt;
use std::num::NonZeroU32;

/// The byte order of an image and of the memory that it runs on.
#[derive(Clone, Copy, Debug)]
pub enum Order {
    Little = 0,
    Big = 1,
}

/// On every context of `least` to `most` bytes the program ends within `bound` instructions.
#[repr(C)]
#[derive(Clone, Copy, Debug, Default)]
pub struct Verdict {
    pub least: u32,
    pub most: u32,
    pub bound: u32,
}

/// Why something is refused: a letter, a number, and a slot; of a certificate a line, and of a filter of classic BPF an instruction.
#[repr(C)]
#[derive(Clone, Copy, Debug, Default)]
pub struct Refusal {
    pub kind: u32,
    pub number: u32,
    pub place: u64,
    pub condition: u64,
}

#[link(name = "bpf_host", kind = "static")]
unsafe extern "C" {
    fn bpf_host_version() -> u32;
    fn bpf_host_loaded_size(image_len: usize) -> usize;
    fn bpf_host_load(
        image: *const u8,
        image_len: usize,
        order: u32,
        certificate: *const u8,
        certificate_len: usize,
        limit: u32,
        memory: *mut c_void,
        memory_len: usize,
        verdict: &mut Verdict,
        refusal: &mut Refusal,
    ) -> i32;
    fn bpf_host_run_loaded(
        memory: *const c_void,
        memory_len: usize,
        context: *const u8,
        context_len: usize,
        value: &mut u64,
    ) -> i32;
    fn bpf_host_infer_size(image_len: usize) -> usize;
    fn bpf_host_infer(
        image: *const u8,
        image_len: usize,
        order: u32,
        least: u32,
        most: u32,
        deep: u32,
        text: *mut u8,
        text_len: usize,
        wanted: &mut usize,
        refusal: &mut Refusal,
    ) -> i32;
    fn bpf_host_harden(
        image: *const u8,
        image_len: usize,
        order: u32,
        asked: &HardenAsked,
        text: *mut u8,
        text_len: usize,
        wanted: &mut usize,
        refusal: &mut Refusal,
    ) -> i32;
    fn bpf_host_certify(
        image: *const u8,
        image_len: usize,
        asked: &CertifyAsked,
        made: *mut u8,
        made_len: usize,
        text: *mut u8,
        text_len: usize,
        told: &mut Told,
        refusal: &mut Refusal,
    ) -> i32;
    fn bpf_host_convert_size(count: usize) -> usize;
    fn bpf_host_convert(
        filter: *const u8,
        filter_len: usize,
        asked: &ConvertAsked,
        made: *mut u8,
        made_len: usize,
        text: *mut u8,
        text_len: usize,
        told: &mut ToldConverted,
        refusal: &mut Refusal,
    ) -> i32;
    fn bpf_host_explain_size(image_len: usize, certificate_len: usize, lines_len: usize) -> usize;
    fn bpf_host_explain(
        image: *const u8,
        image_len: usize,
        order: u32,
        certificate: *const u8,
        certificate_len: usize,
        aspect: u32,
        slot: u32,
        lines: *const u8,
        lines_len: usize,
        text: *mut u8,
        text_len: usize,
        wanted: &mut usize,
        refusal: &mut Refusal,
    ) -> i32;
    fn bpf_host_refusal_text(kind: u32, number: u32, text: *mut u8, text_len: usize) -> usize;
    fn bpf_host_answer_text(answer: i32, text: *mut u8, text_len: usize) -> usize;
}

/// The version of the library that these functions are of, as BPF_HOST_VERSION of bpf.h.
pub const VERSION: u32 = 304;

/// BPF_ANY_TURNS of bpf.h.
const ANY_TURNS: u32 = u32::MAX;

/// `struct bpf_wish` of bpf.h.
#[repr(C)]
struct Asked {
    bound: u32,
    turns: u32,
    otherwise: u64,
    padded: u32,
    unproved: u32,
}

/// `struct bpf_certify_asked` of bpf.h.
#[repr(C)]
struct CertifyAsked {
    order: u32,
    size: u32,
    wish: Asked,
}

/// `struct bpf_harden_asked` of bpf.h.
#[repr(C)]
struct HardenAsked {
    size: u32,
    turns: u32,
    otherwise: u64,
    padded: u32,
    unproved: u32,
    untouched: u32,
}

/// `struct bpf_convert_asked` of bpf.h.
#[repr(C)]
struct ConvertAsked {
    filter_order: u32,
    form: u32,
    size: u32,
    order: u32,
}

/// `struct bpf_certified` of bpf.h.
#[repr(C)]
#[derive(Default)]
struct Told {
    image_len: usize,
    certificate_len: usize,
    bound: u32,
    turns: u32,
    untouched: u32,
    is_rewritten: u32,
    is_shown: u32,
}

/// `struct bpf_converted` of bpf.h.
#[repr(C)]
#[derive(Default)]
struct ToldConverted {
    image_len: usize,
    certificate_len: usize,
    bound: u32,
}

/// The library's answers.
const YES: i32 = 1;
const NO: i32 = 0;
const NO_MEMORY: i32 = -1;
const TOO_LONG: i32 = -4;

/// The greatest image that there is, in bytes.
const IMAGE_MOST: usize = 524_288;

/// The sentence of a refusal, by its letter and number.
fn sentence(kind: u32, number: u32) -> String {
    let mut text = [0; 256];
    // SAFETY: the pointer and the length are the array's.
    let len = unsafe { bpf_host_refusal_text(kind, number, text.as_mut_ptr(), text.len()) };
    String::from_utf8_lossy(&text[..len.min(text.len())]).into_owned()
}

impl Refusal {
    /// The letter of the condition, where that is one of the checker's (C) or of the notes' (M).
    fn condition_letter(&self) -> Option<char> {
        let letter = match (char::from_u32(self.kind)?, self.number) {
            ('I', 4) | ('H', 7 | 15) => 'C',
            ('H', 13) => 'M',
            _ => return None,
        };
        (self.condition != 0).then_some(letter)
    }
}

impl fmt::Display for Refusal {
    fn fmt(&self, f: &mut fmt::Formatter) -> fmt::Result {
        let (number, place, condition) = (self.number, self.place, self.condition);
        let kind = char::from_u32(self.kind).unwrap_or('?');
        let places = match kind {
            'B' => "instruction",
            'K' => "line",
            _ => "slot",
        };
        let words = sentence(self.kind, number);
        write!(f, "{kind}{number} at {places} {place}: {words}")?;
        if (kind, number) == ('H', 14) {
            return write!(f, ": {condition} instructions");
        }
        match self.condition_letter() {
            Some(letter) => {
                let words = sentence(letter.into(), condition.try_into().unwrap_or(0));
                write!(f, ": {letter}{condition}: {words}")
            }
            None => Ok(()),
        }
    }
}

/// Why nothing is loaded, proposed, hardened, certified, converted or explained.
#[derive(Clone, Copy, Debug)]
pub enum Error {
    Refused(Refusal),
    /// A run may take more instructions than the host pays for.
    TooLong {
        bound: u32,
        greatest: u32,
    },
    NoMemory,
    /// The library is of another version than this crate.
    OtherVersion(u32),
    /// Another answer of the library, as to lengths that are no range.
    Answer(i32),
}

impl Error {
    /// What an answer that isn't yes says.
    fn of(answer: i32, refusal: Refusal) -> Error {
        match answer {
            NO => Error::Refused(refusal),
            NO_MEMORY => Error::NoMemory,
            _ => Error::Answer(answer),
        }
    }
}

impl fmt::Display for Error {
    fn fmt(&self, f: &mut fmt::Formatter) -> fmt::Result {
        match self {
            Error::Refused(why) => write!(f, "refused by {why}"),
            Error::TooLong { bound, greatest } => write!(
                f,
                "a run may take {bound} instructions, and this host pays for {greatest} at most"
            ),
            Error::NoMemory => f.write_str("no memory"),
            Error::OtherVersion(version) => write!(
                f,
                "libbpf_host.a is of version {version}, and this crate of {VERSION}"
            ),
            Error::Answer(answer) => {
                let mut text = [0; 256];
                // SAFETY: the pointer and the length are the array's.
                let len = unsafe { bpf_host_answer_text(*answer, text.as_mut_ptr(), text.len()) };
                f.write_str(&String::from_utf8_lossy(&text[..len.min(text.len())]))
            }
        }
    }
}

impl std::error::Error for Error {}

/// Whether the library that is linked is the one that this crate is of.
fn same_version() -> Result<(), Error> {
    // SAFETY: a number comes back.
    match unsafe { bpf_host_version() } {
        VERSION => Ok(()),
        version => Err(Error::OtherVersion(version)),
    }
}

/// A filter that was judged: what is promised of it, and its program, ready to run. Nothing changes its words, so that threads may
/// share it.
pub struct Filter {
    verdict: Verdict,
    words: Vec<u64>,
}

impl fmt::Debug for Filter {
    fn fmt(&self, f: &mut fmt::Formatter) -> fmt::Result {
        f.debug_struct("Filter")
            .field("verdict", &self.verdict)
            .finish_non_exhaustive()
    }
}

impl Filter {
    /// Judges an image by a certificate, and prepares its program, if no run takes more than `greatest` instructions.
    pub fn load(
        image: &[u8],
        certificate: &[u8],
        order: Order,
        greatest: u32,
    ) -> Result<Filter, Error> {
        same_version()?;
        let (mut verdict, mut refusal) = (Verdict::default(), Refusal::default());
        // SAFETY: a number goes in and a number comes back.
        let mut words = vec![0u64; unsafe { bpf_host_loaded_size(image.len()) }];
        // SAFETY: the pointers and lengths are those of slices and of a vector's words.
        let answer = unsafe {
            bpf_host_load(
                image.as_ptr(),
                image.len(),
                order as u32,
                certificate.as_ptr(),
                certificate.len(),
                greatest,
                words.as_mut_ptr().cast(),
                8 * words.len(),
                &mut verdict,
                &mut refusal,
            )
        };
        match answer {
            YES => Ok(Filter { verdict, words }),
            TOO_LONG => Err(Error::TooLong {
                bound: verdict.bound,
                greatest,
            }),
            _ => Err(Error::of(answer, refusal)),
        }
    }

    /// What is promised of the filter.
    pub fn verdict(&self) -> Verdict {
        self.verdict
    }

    /// What the filter says of a context; None if its length isn't one of the verdict's.
    pub fn run(&self, context: &[u8]) -> Option<u64> {
        let mut value = 0;
        // SAFETY: the words are the handle that a load wrote.
        let answer = unsafe {
            bpf_host_run_loaded(
                self.words.as_ptr().cast(),
                8 * self.words.len(),
                context.as_ptr(),
                context.len(),
                &mut value,
            )
        };
        (answer == YES).then_some(value)
    }
}

/// Room for so many bytes. What isn't written isn't filled either.
fn room_for(room: usize) -> Result<Vec<u8>, Error> {
    let mut bytes: Vec<u8> = Vec::new();
    bytes.try_reserve_exact(room).map_err(|_| Error::NoMemory)?;
    Ok(bytes)
}

/// What a call writes into room for so many bytes: it is given the room, and where to tell how many bytes it takes and why it refuses.
fn written(
    room: usize,
    call: impl FnOnce(*mut u8, usize, &mut usize, &mut Refusal) -> i32,
) -> Result<Vec<u8>, Error> {
    same_version()?;
    let mut bytes = room_for(room)?;
    let (mut wanted, mut refusal) = (0, Refusal::default());
    match call(bytes.as_mut_ptr(), room, &mut wanted, &mut refusal) {
        YES => {
            // SAFETY: the library wrote so many bytes, and no more than there is room for.
            unsafe { bytes.set_len(wanted) };
            bytes.shrink_to_fit();
            Ok(bytes)
        }
        answer => Err(Error::of(answer, refusal)),
    }
}

/// A certificate for an image, on contexts of `least` to `most` bytes; with `deep` by the search that finds more.
pub fn infer(
    image: &[u8],
    order: Order,
    least: u32,
    most: u32,
    deep: bool,
) -> Result<Vec<u8>, Error> {
    // SAFETY: a number goes in and a number comes back.
    let room = unsafe { bpf_host_infer_size(image.len()) };
    written(room, |text, text_len, wanted, refusal| {
        // SAFETY: the pointers and lengths are those of a slice and of a vector's room.
        unsafe {
            bpf_host_infer(
                image.as_ptr(),
                image.len(),
                order as u32,
                least,
                most,
                u32::from(deep),
                text,
                text_len,
                wanted,
                refusal,
            )
        }
    })
}

/// What is asked of a hardening.
#[derive(Clone, Copy, Debug)]
pub struct Hardening {
    /// How often a loop that nothing counts may turn.
    pub turns: u32,
    /// Whether the context is a block of a packet's length in eight bytes, the packet and padding.
    pub padded: bool,
    /// r0 where a trap ends the program.
    pub otherwise: u64,
    /// Whether what isn't shown to keep the meaning of the old image is wanted too.
    pub unproved: bool,
    /// It is shown of runs that leave so many of the lowest bytes of each frame to r10.
    pub untouched: u32,
}

impl Default for Hardening {
    fn default() -> Hardening {
        Hardening {
            turns: 65_536,
            padded: false,
            otherwise: 0,
            unproved: false,
            untouched: 0,
        }
    }
}

/// What an image is hardened to, for contexts of `size` bytes.
pub fn harden(image: &[u8], order: Order, size: u32, asked: &Hardening) -> Result<Vec<u8>, Error> {
    let asked = HardenAsked {
        size,
        turns: asked.turns,
        otherwise: asked.otherwise,
        padded: u32::from(asked.padded),
        unproved: u32::from(asked.unproved),
        untouched: asked.untouched,
    };
    written(IMAGE_MOST, |text, text_len, wanted, refusal| {
        // SAFETY: the pointers and lengths are those of a slice and of a vector's room.
        unsafe {
            bpf_host_harden(
                image.as_ptr(),
                image.len(),
                order as u32,
                &asked,
                text,
                text_len,
                wanted,
                refusal,
            )
        }
    })
}

/// What is asked of a certification.
#[derive(Clone, Copy, Debug)]
pub struct Wish {
    /// The greatest bound that is paid for, in instructions.
    pub bound: u32,
    /// How often a loop that nothing counts may turn. None for as often as is found to stay within the bound.
    pub turns: Option<NonZeroU32>,
    /// r0 where a trap ends the program.
    pub otherwise: u64,
    /// Whether the context is a block of a packet's length in eight bytes, the packet and padding.
    pub padded: bool,
    /// Whether a hardened image that isn't shown to keep the meaning of the old one is wanted too.
    pub unproved: bool,
}

impl Default for Wish {
    fn default() -> Wish {
        Wish {
            bound: 1_000_000,
            turns: None,
            otherwise: 0,
            padded: false,
            unproved: false,
        }
    }
}

/// How an image was hardened.
#[derive(Clone, Copy, Debug, PartialEq, Eq)]
pub struct Rewriting {
    /// It is shown of runs of the old image that come to no instruction more often; of all, where this is None.
    pub turns: Option<u32>,
    /// And that leave so many of the lowest bytes of each frame to r10.
    pub untouched: u32,
    /// Whether it is shown that the new image keeps the meaning of the old one, on those runs.
    pub is_shown: bool,
}

/// An image with a certificate.
#[derive(Clone, Debug)]
pub struct Certified {
    pub image: Vec<u8>,
    pub certificate: Vec<u8>,
    /// The greatest number of instructions of a run.
    pub bound: u32,
    /// None where the image is the one that was given.
    pub rewriting: Option<Rewriting>,
}

/// An image certified for contexts of `size` bytes, as it stands or hardened.
pub fn certify(image: &[u8], order: Order, size: u32, wish: &Wish) -> Result<Certified, Error> {
    same_version()?;
    // SAFETY: a number goes in and a number comes back.
    let text_room = unsafe { bpf_host_infer_size(IMAGE_MOST) };
    let (mut made, mut text) = (room_for(IMAGE_MOST)?, room_for(text_room)?);
    let (mut told, mut refusal) = (Told::default(), Refusal::default());
    let asked = CertifyAsked {
        order: order as u32,
        size,
        wish: Asked {
            bound: wish.bound,
            turns: wish.turns.map_or(0, NonZeroU32::get),
            otherwise: wish.otherwise,
            padded: u32::from(wish.padded),
            unproved: u32::from(wish.unproved),
        },
    };
    // SAFETY: the pointers and lengths are those of a slice and of vectors' room.
    let answer = unsafe {
        bpf_host_certify(
            image.as_ptr(),
            image.len(),
            &asked,
            made.as_mut_ptr(),
            made.capacity(),
            text.as_mut_ptr(),
            text.capacity(),
            &mut told,
            &mut refusal,
        )
    };
    if answer != YES {
        return Err(Error::of(answer, refusal));
    }
    // SAFETY: the library wrote so many bytes of each, and no more than there is room for.
    unsafe {
        made.set_len(told.image_len);
        text.set_len(told.certificate_len);
    }
    made.shrink_to_fit();
    text.shrink_to_fit();
    Ok(Certified {
        image: made,
        certificate: text,
        bound: told.bound,
        rewriting: (told.is_rewritten == 1).then_some(Rewriting {
            turns: (told.turns != ANY_TURNS).then_some(told.turns),
            untouched: told.untouched,
            is_shown: told.is_shown == 1,
        }),
    })
}

/// An instruction of classic BPF, as `struct sock_filter` and pcap_compile have it.
#[repr(C)]
#[derive(Clone, Copy, Debug, PartialEq, Eq)]
pub struct Instruction {
    pub code: u16,
    pub jt: u8,
    pub jf: u8,
    pub k: u32,
}

/// The form of the contexts that a filter of classic BPF is converted for.
#[derive(Clone, Copy, Debug)]
pub enum Form {
    /// A packet's length in eight bytes, in the image's order, the packet, as much of it as fits, and anything.
    Blocks = 0,
    /// The packet alone.
    Plain = 1,
    /// `struct seccomp_data`, 64 bytes.
    Seccomp = 2,
    /// As blocks, with sixteen words of Linux's auxiliary data, in the image's order, between the length and the packet.
    Extended = 3,
}

/// An image that was made of a filter of classic BPF, with a certificate.
#[derive(Clone, Debug)]
pub struct Converted {
    pub image: Vec<u8>,
    pub certificate: Vec<u8>,
    /// The greatest number of instructions of a run.
    pub bound: u32,
}

/// A filter of classic BPF as an image for contexts of `size` bytes, which ends with what the filter answers.
pub fn convert(
    filter: &[Instruction],
    form: Form,
    size: u32,
    order: Order,
) -> Result<Converted, Error> {
    same_version()?;
    let asked = ConvertAsked {
        filter_order: u32::from(cfg!(target_endian = "big")),
        form: form as u32,
        size,
        order: order as u32,
    };
    // SAFETY: a number goes in and a number comes back.
    let text_room = unsafe { bpf_host_convert_size(filter.len()) };
    let (mut made, mut text) = (room_for(IMAGE_MOST)?, room_for(text_room)?);
    let (mut told, mut refusal) = (ToldConverted::default(), Refusal::default());
    // SAFETY: the pointers and lengths are those of a slice, whose items have no padding, and of vectors' room.
    let answer = unsafe {
        bpf_host_convert(
            filter.as_ptr().cast(),
            size_of_val(filter),
            &asked,
            made.as_mut_ptr(),
            made.capacity(),
            text.as_mut_ptr(),
            text.capacity(),
            &mut told,
            &mut refusal,
        )
    };
    if answer != YES {
        return Err(Error::of(answer, refusal));
    }
    // SAFETY: the library wrote so many bytes of each, and no more than there is room for.
    unsafe {
        made.set_len(told.image_len);
        text.set_len(told.certificate_len);
    }
    made.shrink_to_fit();
    text.shrink_to_fit();
    Ok(Converted {
        image: made,
        certificate: text,
        bound: told.bound,
    })
}

/// What is known of an image under a certificate, or why one of the two is refused: the words of `bpf explain`.
pub fn explain(image: &[u8], certificate: &[u8], order: Order) -> Result<String, Error> {
    const LISTING: u32 = 0;
    // SAFETY: numbers go in and a number comes back.
    let room = unsafe { bpf_host_explain_size(image.len(), certificate.len(), 0) };
    let words = written(room, |text, text_len, wanted, refusal| {
        // SAFETY: the pointers and lengths are those of slices and of a vector's room.
        let answer = unsafe {
            bpf_host_explain(
                image.as_ptr(),
                image.len(),
                order as u32,
                certificate.as_ptr(),
                certificate.len(),
                LISTING,
                0,
                [].as_ptr(),
                0,
                text,
                text_len,
                wanted,
                refusal,
            )
        };
        // Words of a refusal are words.
        if answer == NO { YES } else { answer }
    })?;
    Ok(String::from_utf8_lossy(&words).into_owned())
}
