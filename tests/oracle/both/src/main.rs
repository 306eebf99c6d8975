//! The proved library beside the Rust that it is a port of, on feeds at random.
//!
//!     both compare SEED PACKETS    compares feeds up to so many packets; at a difference prints the smallest input found, and ends with 1
//!     both feed SEED NUMBER        prints a feed of that seed, and what it comes to
//!     both large                   the largest objects and messages
//!     both list SEED BYTES         feeds of that seed as the list that the program `replay` takes, at most so many bytes
mod all;
mod apart;
mod calls;
mod compare;
mod covered;
mod debug_text;
mod differ;
mod feed;
mod kept;
mod large;
mod layout;
mod list;
mod looks;
mod make;
mod openings;
mod questions;
mod random;
mod seen;
mod shadow;
mod shrink;
mod walk_descriptors;
mod walk_tables;

use compare::{Canvas, run};
use covered::Covered;
use feed::Feed;
use std::process::ExitCode;

/// The feed of a seed with a number.
fn feed_of(seed: u64, number: u64) -> Feed {
    make::Maker::new(seed.wrapping_mul(0x9E37_79B9_7F4A_7C15) ^ number << 20).feed()
}

/// The functions that take no session, on bytes and times at random.
fn compare_small(seed: u64) {
    let mut r = random::Random::new(seed);
    for n in 0..2000 {
        let (b, t) = (r.bytes(n % 300), r.word() & r.pick(&[u64::MAX, !0x7FF, 0xFFFF_FFFF, u64::MAX << 32]));
        differ::same(|| format!("isdb_crc32 {b:02x?}"), &calls::crc32(&b), &isdb_ts::crc::crc32(&b));
        let rust = isdb_mmt::desc::ntp_to_unix(t).to_bits();
        differ::same(|| format!("isdb_ntp_to_unix {t:016x}"), &calls::ntp_to_unix(t), &rust);
    }
}

fn report(seed: u64, number: u64, told: String, covered: &Covered, canvas: &Canvas) -> ExitCode {
    let feed = feed_of(seed, number);
    println!("a difference in feed {number} of seed {seed}, after {} packets: {told}", covered.packets);
    let (small, told) = shrink::shrink(&feed, told, canvas);
    println!("the smallest input found:\n{small}{told}");
    ExitCode::FAILURE
}

fn compare(seed: u64, packets: u64) -> ExitCode {
    let (canvas, mut covered) = (Canvas::new(), Covered::default());
    if let Err(told) = differ::caught(|| compare_small(seed)) {
        println!("a difference after 0 packets: {told}");
        return ExitCode::FAILURE;
    }
    for number in 0.. {
        if covered.packets >= packets {
            break;
        }
        let feed = feed_of(seed, number);
        if let Err(told) = differ::caught(|| run(&feed, &canvas, &mut covered, false)) {
            return report(seed, number, told, &covered, &canvas);
        }
        if let Err(told) = differ::caught(|| apart::compare(&mut make::Maker::new(seed ^ number << 24), &mut covered)) {
            println!("a difference apart from a session, after {} packets: {told}", covered.packets);
            return ExitCode::FAILURE;
        }
    }
    println!("seed {seed}: {covered}; no difference");
    ExitCode::SUCCESS
}

fn show(seed: u64, number: u64) -> ExitCode {
    let (feed, mut covered) = (feed_of(seed, number), Covered::default());
    let told = differ::caught(|| run(&feed, &Canvas::new(), &mut covered, true));
    println!("{feed}{covered}\n{told:?}");
    ExitCode::from(u8::from(told.is_err()))
}

fn large() -> ExitCode {
    let mut covered = Covered::default();
    match differ::caught(|| large::all(&mut covered)) {
        Ok(()) => ExitCode::SUCCESS,
        Err(told) => {
            println!("a difference: {told}");
            ExitCode::FAILURE
        }
    }
}

fn main() -> ExitCode {
    std::panic::set_hook(Box::new(|_| {}));
    let args: Vec<String> = std::env::args().skip(1).collect();
    let number = |i: usize| args.get(i).and_then(|a| a.parse().ok());
    match (args.first().map(String::as_str), number(1), number(2)) {
        (Some("compare"), Some(seed), Some(packets)) => compare(seed, packets),
        (Some("feed"), Some(seed), Some(n)) => show(seed, n),
        (Some("large"), None, None) => large(),
        (Some("list"), Some(seed), Some(most)) => {
            list::write((0..).map(|n| feed_of(seed, n)), most as usize).unwrap();
            ExitCode::SUCCESS
        }
        _ => {
            println!("usage: both compare SEED PACKETS | feed SEED NUMBER | large | list SEED BYTES");
            ExitCode::from(2)
        }
    }
}
