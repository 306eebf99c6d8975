//! Times: the best of many short rounds, so that what else runs on the machine counts little. The sides take turns, some rounds each.
use crate::both::{Both, same};
use crate::cases::Case;
use crate::feed::{Feed, Step};
use crate::{crc, feed, library, make};
use std::hint::black_box;
use std::time::Instant;

/// A row of the table: nanoseconds for so many bytes, of the Rust, of a call a packet, and of a call for many packets where there is one.
pub struct Times {
    pub name: String,
    pub bytes: f64,
    pub rust: f64,
    pub library: f64,
    pub many: Option<f64>,
}

const TURN: usize = 20;

/// The best of `rounds` for each side, in turns.
pub fn best_of<const N: usize>(rounds: usize, mut sides: [&mut dyn FnMut() -> f64; N]) -> [f64; N] {
    let mut best = [f64::MAX; N];
    for _ in 0..rounds.div_ceil(TURN) {
        for (side, best) in sides.iter_mut().zip(&mut best) {
            *best = (0..TURN).fold(*best, |b, _| b.min(side()));
        }
    }
    best
}

/// Nanoseconds.
pub fn elapsed(what: impl FnOnce()) -> f64 {
    let start = Instant::now();
    what();
    start.elapsed().as_secs_f64() * 1e9
}

/// Nanoseconds a packet for a pass over a feed, whose numbers then go on outside of that time.
fn pass(feed: &mut Feed, push: impl FnMut(&Step)) -> f64 {
    let t = elapsed(|| feed.0.iter().for_each(push));
    feed.advance();
    t / feed.0.len() as f64
}

/// Nanoseconds a packet for a pass over a feed's packets one behind the other; they are put so, and their numbers go on, outside of that time.
fn pass_all(feed: &mut Feed, push_all: impl FnOnce(&[u8])) -> f64 {
    let input = feed.framed();
    let t = elapsed(|| push_all(&input));
    feed.advance();
    t / feed.0.len() as f64
}

/// Compares both sides on two passes of a case, takes the times, and compares again what they know; so for many packets in a call, on a
/// session of its own.
pub fn case(c: Case, rounds: usize) -> Result<Times, String> {
    let Case { name, mut before, mut feed, pass: expected, window } = c;
    let (mut both, mut second) = (Both::open(), Both::open());
    second.pass(&mut before.clone())?;
    second.pass(&mut feed.clone())?;
    both.pass(&mut before)?;
    both.pass(&mut feed)?;
    second.pass(&mut feed.clone())?;
    same("records, tables and version changes of a pass, and those of the case", both.pass(&mut feed)?, expected)?;
    both.same_known()?;
    both.all_good()?;
    let (packets, bytes) = (feed.0.len() as u64, feed.bytes() as f64 / feed.0.len() as f64);
    let (mut of_rust, mut of_many, mut of_library) = (feed.clone(), feed.clone(), feed);
    let (Both { library, rust }, many, mut codes, mut missing) = (&mut both, &mut second.library, 0, 0);
    let mut on_rust = || pass(&mut of_rust, |s| rust.push(s));
    let mut on_library = || pass(&mut of_library, |s| codes |= library.push(s));
    let mut on_many = || pass_all(&mut of_many, |input| missing |= packets - many.push_all(input, window));
    let [rust, library, many] = best_of(rounds, [&mut on_rust, &mut on_library, &mut on_many]);
    same("the codes of all pushes, or'ed", codes, 0)?;
    same("packets that a call for many did not take", missing, 0)?;
    both.same_known()?;
    std::mem::swap(&mut second.library, &mut both.library);
    both.same_known()?;
    Ok(Times { name, bytes, rust, library, many: Some(many) })
}

/// A case of whole units, and nanoseconds for a memcpy of each unit alone: from the packets of `push`, from those of `push_all`.
pub struct Copies {
    pub times: Times,
    pub packets: f64,
    pub windows: f64,
}

/// Where the copies start. A memcpy takes many times as long where its copy starts a little behind its source in a page, so it gets the
/// best of some places.
const PLACES: [usize; 4] = [0, 1024, 2048, 3072];

fn best_place(rounds: usize, mut copy: impl FnMut(usize) -> f64) -> f64 {
    PLACES.iter().fold(f64::MAX, |best, &at| best.min(best_of(rounds, [&mut || copy(at)])[0]))
}

/// To one place.
fn copy_unit(packet: &[u8], out: &mut [u8]) {
    let unit = &packet[make::UNIT_AT..];
    out[..unit.len()].copy_from_slice(unit);
    black_box(out);
}

/// To places one behind the other, from the start in every window. All packets have one size.
fn copy_windows(input: &[u8], window: usize, size: usize, out: &mut [u8]) {
    for window in input.chunks(window / size * size) {
        let mut to = 0;
        for packet in window.chunks(size) {
            copy_unit(&packet[feed::HEADER..], &mut out[to..]);
            to += size - feed::HEADER - make::UNIT_AT;
        }
    }
}

pub fn copies(c: Case, rounds: usize) -> Result<Copies, String> {
    let (mut feed, mut out) = (c.feed.clone(), vec![0; library::OUT]);
    let size = feed::HEADER + feed.0[0].packet.data.len();
    let packets = best_place(rounds, |at| pass(&mut feed, |s| copy_unit(&s.packet.data, &mut out[at..])));
    let windows = best_place(rounds, |at| pass_all(&mut feed, |input| copy_windows(input, c.window, size, &mut out[at..])));
    Ok(Copies { times: case(c, rounds)?, packets, windows })
}

/// Nanoseconds a call. Each call starts where the last one's result says, so that they stand one behind the other.
fn crc_time(crc: impl Fn(&[u8]) -> u32, b: &[u8], n: usize) -> f64 {
    let calls = 200_000 / n + 1;
    let t = elapsed(|| _ = black_box((0..calls).fold(0, |z, _| crc(&b[z as usize & 7..][..n]))));
    t / calls as f64
}

pub fn crc_name(n: usize) -> String {
    format!("CRC alone, {n} bytes (a table of bytes for the Rust)")
}

/// The library's CRC of so many bytes beside a table of bytes.
pub fn crc_alone(n: usize, rounds: usize) -> Result<Times, String> {
    let b: Vec<u8> = (0..n + 8)
        .scan(1u32, |z, _| {
            *z = z.wrapping_mul(0x0019_660D).wrapping_add(0x3C6E_F35F);
            Some((*z >> 24) as u8)
        })
        .collect();
    for at in 0..8 {
        same("a CRC", library::crc32(&b[at..at + n]), crc::by_bytes(&b[at..at + n]))?;
    }
    let [rust, library] = best_of(rounds, [&mut || crc_time(crc::by_bytes, &b, n), &mut || crc_time(library::crc32, &b, n)]);
    Ok(Times { name: crc_name(n), bytes: n as f64, rust, library, many: None })
}
