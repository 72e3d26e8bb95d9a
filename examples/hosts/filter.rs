//! filter.rs: runs a filter that somebody else wrote over the frames of a pcap file, as filter.c does.
//!
//!     filter [--big] IMAGE CERTIFICATE FRAMES [ROUNDS]
//!
//! A filter gets each frame in a block, the context of examples/c/filter.h: the frame's length as a number of eight bytes in the
//! image's order, then the frame, then zeros, in as many bytes as the certificate speaks of at most. Of a frame that doesn't fit,
//! the block has the beginning, and its length is the whole one.
//!
//! The module `bpf` is the crate bpf-host, whose file may be taken as it is.

use std::io::{self, Write};
use std::process::ExitCode;
use std::time::Instant;
use std::{env, fs};

#[allow(dead_code)] // a whole crate, of which a host uses what it wants
#[path = "bpf-host/src/lib.rs"]
mod bpf;

/// The frames of a pcap file: a head of 24 bytes, then for each frame one of 16 and its bytes.
struct Frames<'a> {
    rest: &'a [u8],
    big: bool,
}

fn number_at(bytes: &[u8], at: usize, big: bool) -> Option<u32> {
    let four = bytes.get(at..at + 4)?.try_into().ok()?;
    Some(if big {
        u32::from_be_bytes(four)
    } else {
        u32::from_le_bytes(four)
    })
}

impl<'a> Frames<'a> {
    fn of(file: &'a [u8]) -> Option<Frames<'a>> {
        let rest = file.get(24..)?;
        match number_at(file, 0, false)? {
            0xa1b2c3d4 | 0xa1b23c4d => Some(Frames { rest, big: false }),
            0xd4c3b2a1 | 0x4d3cb2a1 => Some(Frames { rest, big: true }),
            _ => None,
        }
    }
}

impl<'a> Iterator for Frames<'a> {
    type Item = &'a [u8];

    fn next(&mut self) -> Option<&'a [u8]> {
        let len = number_at(self.rest, 8, self.big)? as usize;
        let frame = self.rest.get(16..)?.get(..len)?;
        self.rest = &self.rest[16 + len..];
        Some(frame)
    }
}

/// A run of so many instructions takes a few milliseconds: what this host pays for a frame at most.
const GREATEST_BOUND: u32 = 1_000_000;

/// The bytes in front of a block that hold the frame's length.
const LENGTH_BYTES: usize = 8;

/// A filter, and the block that it gets its frames in.
struct Gate {
    filter: bpf::Filter,
    order: bpf::Order,
    block: Vec<u8>,
}

impl Gate {
    /// None if a context has no room for a frame's length.
    fn of(filter: bpf::Filter, order: bpf::Order) -> Option<Gate> {
        let block = vec![0; filter.verdict().most as usize];
        (block.len() >= LENGTH_BYTES).then_some(Gate {
            filter,
            order,
            block,
        })
    }

    /// Puts a frame into the block.
    fn fill(&mut self, frame: &[u8]) {
        let length = frame.len() as u64;
        let (head, room) = self.block.split_at_mut(LENGTH_BYTES);
        head.copy_from_slice(&match self.order {
            bpf::Order::Little => length.to_le_bytes(),
            bpf::Order::Big => length.to_be_bytes(),
        });
        let (taken, rest) = room.split_at_mut(frame.len().min(room.len()));
        taken.copy_from_slice(&frame[..taken.len()]);
        rest.fill(0);
    }

    /// Whether the filter accepts a frame.
    fn accepts(&mut self, frame: &[u8]) -> bool {
        self.fill(frame);
        self.filter.run(&self.block).is_some_and(|value| value != 0)
    }
}

/// Tells the answer on each frame, and then how many frames there were a second.
fn filter_all(gate: &mut Gate, file: &[u8], rounds: usize) -> Result<(), String> {
    let broken = "no pcap file";
    let mut out = io::BufWriter::new(io::stdout());
    for frame in Frames::of(file).ok_or(broken)? {
        let line = if gate.accepts(frame) {
            "accept"
        } else {
            "drop"
        };
        writeln!(out, "{line}").map_err(|error| error.to_string())?;
    }
    out.flush().map_err(|error| error.to_string())?;
    let start = Instant::now();
    let (mut count, mut accepted) = (0, 0);
    for _ in 0..rounds {
        for frame in Frames::of(file).ok_or(broken)? {
            count += 1;
            accepted += usize::from(gate.accepts(frame));
        }
    }
    let rate = count as f64 / start.elapsed().as_secs_f64();
    eprintln!("{accepted} of {count} frames accepted, {rate:.0} frames a second");
    Ok(())
}

fn run(words: &[String]) -> Result<(), String> {
    let (order, words) = match words.split_first() {
        Some((first, rest)) if first == "--big" => (bpf::Order::Big, rest),
        _ => (bpf::Order::Little, words),
    };
    let [image, certificate, frames, rest @ ..] = words else {
        return Err("usage: filter [--big] IMAGE CERTIFICATE FRAMES [ROUNDS]".to_owned());
    };
    let read =
        |name: &String| fs::read(name).map_err(|error| format!("cannot read {name}: {error}"));
    let rounds = rest
        .first()
        .map_or(Ok(1), |word| word.parse())
        .map_err(|_| "bad ROUNDS".to_owned())?;
    let filter = bpf::Filter::load(&read(image)?, &read(certificate)?, order, GREATEST_BOUND)
        .map_err(|error| error.to_string())?;
    let most = filter.verdict().most;
    let mut gate = Gate::of(filter, order).ok_or(format!(
        "a context of {most} bytes has no room for the frame's length, {LENGTH_BYTES} bytes"
    ))?;
    filter_all(&mut gate, &read(frames)?, rounds)
}

fn main() -> ExitCode {
    let words: Vec<String> = env::args().skip(1).collect();
    match run(&words) {
        Ok(()) => ExitCode::SUCCESS,
        Err(error) => {
            eprintln!("filter: {error}");
            ExitCode::FAILURE
        }
    }
}
