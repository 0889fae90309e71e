//! Times `streaming` of the crate lines beside gix-packetline's, over 64 MiB of lines.
use std::hint::black_box;
use std::time::Instant;

use gix_packetline::PacketLineRef;
use gix_packetline::decode::{Stream, streaming};

use crate::random::Rng;

unsafe extern "C" {
    fn line_tally(data: *const u8, len: usize) -> u64;
}

fn ours(data: &[u8]) -> u64 {
    unsafe { line_tally(data.as_ptr(), data.len()) }
}

// The same tally as the export's, by the Rust.
fn theirs(data: &[u8]) -> u64 {
    let mut at = 0;
    let mut tally = 0u64;
    while at < data.len() {
        let Ok(Stream::Complete { line, bytes_consumed }) = streaming(&data[at..]) else {
            return tally;
        };
        tally = match line {
            PacketLineRef::Data([first, ..]) => tally.wrapping_add(*first as u64 + bytes_consumed as u64),
            PacketLineRef::Data([]) => tally,
            PacketLineRef::Flush => tally.wrapping_add(1),
            PacketLineRef::Delimiter => tally.wrapping_add(2),
            PacketLineRef::ResponseEnd => tally.wrapping_add(3),
        };
        at += bytes_consumed;
    }
    tally
}

const SIZE: usize = 64 << 20;

// Lines with payloads of 1 to `most` bytes, or of `most` bytes each, and a marker now and then.
fn capture(rng: &mut Rng, most: u64, each: bool) -> (Vec<u8>, usize) {
    let mut data = Vec::with_capacity(SIZE + 65520);
    let mut lines = 0;
    while data.len() < SIZE {
        let long = if each { most } else { 1 + rng.below(most) };
        data.extend_from_slice(format!("{:04x}", long + 4).as_bytes());
        data.extend((0..long).map(|i| (i % 251) as u8));
        lines += 1;
        if rng.below(50) == 0 {
            data.extend_from_slice(b"0000");
            lines += 1;
        }
    }
    (data, lines)
}

fn seconds(f: fn(&[u8]) -> u64, data: &[u8], want: u64) -> f64 {
    let start = Instant::now();
    assert_eq!(black_box(f(black_box(data))), want);
    start.elapsed().as_secs_f64()
}

// The best of many runs of each, by turns, so that both meet the same load of the machine.
fn time(name: &str, (data, lines): (Vec<u8>, usize)) {
    let want = theirs(&data);
    let (mut a, mut b) = (f64::MAX, f64::MAX);
    for _ in 0..25 {
        a = a.min(seconds(ours, &data, want));
        b = b.min(seconds(theirs, &data, want));
    }
    let each = |seconds: f64| seconds / lines as f64 * 1e9;
    println!(
        "streaming, payloads of {name:16} {lines:9} lines   ours {:8.2} ns/line   Rust {:8.2} ns/line   ours/Rust {:5.2}",
        each(a),
        each(b),
        a / b
    );
}

/// Times the four kinds of captures.
pub fn run() {
    let mut rng = Rng(0x9E37_79B9_7F4A_7C15);
    time("1 to 8", capture(&mut rng, 8, false));
    time("1 to 60", capture(&mut rng, 60, false));
    time("1 to 1,000", capture(&mut rng, 1000, false));
    time("65,516", capture(&mut rng, 65516, true));
}
