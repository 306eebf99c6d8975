//! Many packets in one call beside as many pushes: a feed's packets as recordings, in stretches, into two sessions.
use crate::calls::Memory;
use crate::compare::{Canvas, lent, write};
use crate::covered::Covered;
use crate::differ::{differ, same};
use crate::feed::{Feed, Step};
use crate::random::Random;

/// Why a call ends, as include/isdb.h has it.
const END: u64 = 0;
const SHORT: u64 = 1;
const BAD: u64 = 2;
const FULL: u64 = 3;
const REFUSED: u64 = 4;

const MOST: usize = 65_535;

#[derive(Clone)]
struct Outputs {
    rows: Vec<u8>,
    out: Vec<u8>,
    lines: Vec<u8>,
}

/// The packet that the input begins with, or why a call ends there.
fn first(input: &[u8], most: usize) -> Result<(u8, &[u8]), u64> {
    match *input {
        [] => Err(END),
        [0x7F, kind, a, b, ref rest @ ..] => match usize::from(u16::from_be_bytes([a, b])) {
            n if n > most => Err(BAD),
            n => rest.get(..n).map(|data| (kind, data)).ok_or(SHORT),
        },
        [0x7F, ..] => Err(SHORT),
        _ => Err(BAD),
    }
}

/// The packets of an input, a push each, into what the earlier ones left of the outputs: the place, the packets, their records and
/// bytes, why it ends, and the number of a packet that is turned down.
fn one_by_one(memory: &mut Memory, input: &[u8], most: usize, o: &mut Outputs) -> [u64; 6] {
    let [mut at, mut packets, mut records, mut bytes] = [0; 4];
    let (halt, number) = loop {
        let (kind, data) = match first(&input[at..], most) {
            Ok(packet) => packet,
            Err(halt) => break (halt, 0),
        };
        let Some(line) = o.lines.get_mut(16 * packets..16 * packets + 16) else { break (FULL, 0) };
        match memory.push(kind, data, &mut o.rows[36 * records..], &mut o.out[bytes..]) {
            Err(number) => break (REFUSED, number.into()),
            Ok((r, b)) => {
                line[..8].copy_from_slice(&(r as u64).to_be_bytes());
                line[8..].copy_from_slice(&(b as u64).to_be_bytes());
                (at, packets, records, bytes) = (at + 4 + data.len(), packets + 1, records + r, bytes + b);
            }
        }
    };
    [at as u64, packets as u64, records as u64, bytes as u64, halt, number]
}

struct Beside<'a> {
    feed: &'a Feed,
    canvas: &'a Canvas,
    covered: &'a mut Covered,
    random: Random,
    /// The session of the pushes, and that of the calls for many packets.
    sessions: [Memory; 2],
}

impl Beside<'_> {
    /// A call on both sides: how far it came, and how many packets that was.
    fn call(&mut self, input: &[u8]) -> (usize, u64) {
        let (most, lines) = (self.random.pick(&[MOST, MOST, MOST, 600]), self.random.pick(&[15, 16, 47, 80, 4096, 4096]));
        let lent = |n: usize| self.canvas.0[..n].to_vec();
        let mut outputs = Outputs { rows: lent(self.feed.rows.min(36 * 512)), out: lent(self.feed.out.min(1 << 17)), lines: lent(lines) };
        let mut all = outputs.clone();
        let [pushes, many] = &mut self.sessions;
        let expected = one_by_one(pushes, input, most, &mut outputs);
        let told = many.push_all(input, most, &mut all.rows, &mut all.out, &mut all.lines);
        same(|| "a call for many packets".into(), &told.map(|v| v[..6].to_vec()), &Ok(expected.to_vec()));
        same(|| "the lines of a call for many packets".into(), &all.lines, &outputs.lines);
        if all.rows != outputs.rows || all.out != outputs.out {
            differ("the records or data of a call for many packets".into());
        }
        self.covered.calls[expected[4] as usize] += 1;
        (expected[0] as usize, expected[1])
    }

    /// All packets of an input, in as many calls as it takes; a packet at which a call ends at once is passed over.
    fn calls(&mut self, input: &[u8]) {
        let mut at = 0;
        while at < input.len() {
            let (taken, packets) = self.call(&input[at..]);
            at += taken;
            if packets == 0 {
                let Ok((_, data)) = first(&input[at..], MOST) else { return };
                at += 4 + data.len();
            }
        }
    }

    /// A stretch of the feed, with something behind it that is no packet, or not a whole one.
    fn stretch(&mut self, input: &mut Vec<u8>) {
        let tail: &[u8] = self.random.pick(&[&[], &[], &[0x7F], &[0x7F, 3, 0, 9, 1], &[0x47, 0, 0, 0]]);
        input.extend(tail);
        self.calls(input);
        input.clear();
        if self.sessions[0] != self.sessions[1] {
            differ("the session after calls for many packets".into());
        }
    }
}

/// The packets of a feed, in stretches at random; what someone else writes is written to both sessions.
pub fn compare(feed: &Feed, canvas: &Canvas, covered: &mut Covered) {
    let random = Random::new(feed.fill.unwrap_or(feed.slack as u64) ^ feed.steps.len() as u64);
    let mut beside = Beside { feed, canvas, covered, random, sessions: [lent(feed), lent(feed)] };
    beside.sessions.iter_mut().for_each(|m| same(|| "isdb_open".into(), &m.open(&feed.limits.words()), &0));
    let mut input = Vec::new();
    for step in &feed.steps {
        match step {
            Step::Look => {}
            // a length of 16 bits does not hold a longer one
            Step::Packet(_, data) if data.len() > MOST => {}
            Step::Packet(kind, data) => {
                input.extend([0x7F, *kind]);
                input.extend((data.len() as u16).to_be_bytes());
                input.extend(data);
                if beside.random.once_in(24) {
                    beside.stretch(&mut input);
                }
            }
            _ => {
                beside.stretch(&mut input);
                beside.sessions.iter_mut().for_each(|m| write(m, step));
            }
        }
    }
    beside.stretch(&mut input);
}
