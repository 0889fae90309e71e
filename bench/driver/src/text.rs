//! Times `is_utf8` of the crate utf8 beside `std::str::from_utf8`, and checks that the two agree.
use std::hint::black_box;
use std::time::Instant;

use crate::random::Rng;

unsafe extern "C" {
    fn text_is_utf8(data: *const u8, len: usize) -> bool;
}

fn ours(s: &[u8]) -> bool {
    unsafe { text_is_utf8(s.as_ptr(), s.len()) }
}

fn std_is(s: &[u8]) -> bool {
    std::str::from_utf8(s).is_ok()
}

const SIZE: usize = 1 << 20;

fn pure_ascii(rng: &mut Rng) -> String {
    let mut s = String::new();
    while s.len() < SIZE {
        s.push(rng.ascii());
    }
    s
}

// One character in `spread`, on the average, is wide.
fn mixed(rng: &mut Rng, spread: u64) -> String {
    let mut s = String::new();
    while s.len() < SIZE {
        if rng.below(spread) == 0 {
            let width = 2 + rng.below(3);
            s.push(rng.wide(width));
        } else {
            s.push(rng.ascii());
        }
    }
    s
}

fn cjk(rng: &mut Rng) -> String {
    let mut s = String::new();
    while s.len() < SIZE {
        s.push(char::from_u32(0x4E00 + rng.below(0x5000) as u32).unwrap());
    }
    s
}

fn two_bytes(rng: &mut Rng) -> String {
    let mut s = String::new();
    while s.len() < SIZE {
        s.push(char::from_u32(0x410 + rng.below(0x40) as u32).unwrap());
    }
    s
}

fn seconds(f: fn(&[u8]) -> bool, s: &[u8]) -> f64 {
    let start = Instant::now();
    assert!(black_box(f(black_box(s))));
    start.elapsed().as_secs_f64()
}

// The best of many runs of each, by turns, so that both meet the same load of the machine.
fn time(name: &str, s: &str) {
    let (mut a, mut b) = (f64::MAX, f64::MAX);
    for _ in 0..100 {
        a = a.min(seconds(ours, s.as_bytes()));
        b = b.min(seconds(std_is, s.as_bytes()));
    }
    let rate = |seconds: f64| s.len() as f64 / seconds / 1e9;
    println!("{name:24} ours {:7.2} GB/s   std {:7.2} GB/s   ours/std {:5.2}", rate(a), rate(b), b / a);
}

fn agree(s: &[u8]) {
    assert_eq!(ours(s), std_is(s), "differ at {s:02X?}");
}

fn exhaustive() {
    for a in 0..=255 {
        agree(&[a]);
        for b in 0..=255 {
            agree(&[a, b]);
            for c in 0..=255 {
                agree(&[a, b, c]);
            }
        }
    }
    // Every lead and second byte before each pair of the ranges' edges.
    let edges = [0x00, 0x7F, 0x80, 0x8F, 0x90, 0x9F, 0xA0, 0xBF, 0xC0, 0xFF];
    for a in 0..=255 {
        for b in 0..=255 {
            for c in edges {
                for d in edges {
                    agree(&[a, b, c, d]);
                }
            }
        }
    }
    println!("agree on all strings of 1, 2 and 3 bytes, and on 4 bytes by the ranges' edges");
}

// Text of at most 40 bytes, at each alignment, as it is, with one byte changed, cut, and with random bytes.
fn random(rng: &mut Rng, rounds: u64) {
    let mut room = [0u8; 128];
    let mut valid = 0u64;
    for round in 0..rounds {
        let mut text = String::new();
        let long = rng.below(41) as usize;
        let spread = 1 + rng.below(12);
        while text.len() < long {
            let width = if rng.below(spread) == 0 { 1 + rng.below(4) } else { 1 };
            text.push(rng.wide(width));
        }
        let len = text.len().min(long);
        let at = (round % 64) as usize;
        let s = &mut room[at..at + len];
        s.copy_from_slice(&text.as_bytes()[..len]);
        match rng.below(4) {
            1 if len > 0 => s[rng.below(len as u64) as usize] = rng.next() as u8,
            2 if len > 0 => s[rng.below(len as u64) as usize] ^= 1 << rng.below(8),
            3 if len > 0 && rng.below(4) == 0 => s.fill_with(|| rng.next() as u8),
            _ => {}
        }
        agree(s);
        valid += u64::from(std_is(s));
    }
    println!("agree on {rounds} random and damaged strings of at most 40 bytes, {valid} of them UTF-8");
}

// In text long enough for several blocks, every byte is damaged in turn, at each alignment.
fn damaged(rng: &mut Rng) {
    let mut room = [0u8; 320];
    for at in 0..64 {
        for spread in [0, 2, 9, 40] {
            let mut text = String::new();
            while text.len() < 200 {
                let wide = spread > 0 && rng.below(spread) == 0;
                let width = if wide { 1 + rng.below(4) } else { 1 };
                text.push(rng.wide(width));
            }
            let s = &mut room[at..at + text.len()];
            s.copy_from_slice(text.as_bytes());
            agree(s);
            for i in 0..s.len() {
                let kept = s[i];
                for byte in [0x00, 0x7F, 0x80, 0xBF, 0xC2, 0xE0, 0xED, 0xF0, 0xF4, 0xFF] {
                    s[i] = byte;
                    agree(s);
                }
                s[i] = kept;
                agree(&s[..i]);
                agree(&s[i..]);
            }
        }
    }
    println!("agree on text of 200 bytes with every byte damaged in turn, at 64 alignments");
}

/// Checks agreement first, and then times.
pub fn run() {
    let mut rng = Rng(0x9E37_79B9_7F4A_7C15);
    exhaustive();
    random(&mut rng, 8_000_000);
    damaged(&mut rng);
    time("ASCII", &pure_ascii(&mut rng));
    time("mixed, 1 in 100 wide", &mixed(&mut rng, 100));
    time("mixed, 1 in 20 wide", &mixed(&mut rng, 20));
    time("mixed, 1 in 5 wide", &mixed(&mut rng, 5));
    time("Cyrillic (2 bytes)", &two_bytes(&mut rng));
    time("CJK (3 bytes)", &cjk(&mut rng));
}
