//! The largest objects and messages, on both sides: what just fits the Rust's own bounds, and what is a byte more.
use crate::compare::{Canvas, Run};
use crate::covered::Covered;
use crate::feed::{Feed, Step};
use crate::layout::Limits;

const MOST_OBJECT: usize = 1 << 24;
const MOST_MESSAGE: usize = 1 << 20;

fn mmtp(kind: u8, packet_id: u16, sequence: u32, payload: &[u8]) -> Step {
    let mut b = vec![0x00, 0x10, 0x61, 0x00, kind];
    b.extend(packet_id.to_be_bytes());
    b.extend([0; 4]);
    b.extend(sequence.to_be_bytes());
    b.extend(payload);
    Step::Packet(3, b)
}

/// A unit of an item with some data: 1 head, 2 middle, 3 last.
fn unit(sequence: u32, part: u8, data: &[u8]) -> Step {
    let mut b = ((data.len() + 10) as u16).to_be_bytes().to_vec();
    b.extend([0x20 | part << 1, 0, 0, 0, 0, 7, 0, 0, 0, 9]);
    b.extend(data);
    mmtp(0, 0xF100, sequence, &b)
}

fn fragment(sequence: u32, part: u8, data: &[u8]) -> Step {
    mmtp(2, 0x8001, sequence, &[&[part << 6, 0], data].concat())
}

/// Bytes of an object.
fn object_bytes(n: usize) -> Vec<u8> {
    (0..n).map(|i| (i * 7 + i / 251) as u8).collect()
}

/// A PA message of so many bytes: tables of id 10h, which are only counted, each as long as can be, and a shorter one at the end.
fn message_bytes(n: usize) -> Vec<u8> {
    let mut b = vec![0, 0, 0];
    b.extend((n as u32 - 7).to_be_bytes());
    b.push(0);
    while n - b.len() >= 4 {
        let length = (n - b.len() - 4).min(65_535);
        b.extend([0x10, 0, (length >> 8) as u8, length as u8]);
        b.extend(object_bytes(length));
    }
    b.resize(n, 0);
    b
}

/// Bytes in parts that fit a packet, the last so many of them in a part of their own, which comes as `end` says.
fn parts(bytes: &[u8], tail: usize, end: u8, piece: impl Fn(u32, u8, &[u8]) -> Step) -> Vec<Step> {
    let (front, back) = bytes.split_at(bytes.len() - tail);
    let mut steps: Vec<Step> =
        front.chunks(60_000).enumerate().map(|(i, c)| piece(i as u32, if i == 0 { 1 } else { 2 }, c)).collect();
    steps.push(piece(steps.len() as u32, end, back));
    steps
}

fn feed(steps: Vec<Step>, out: usize) -> Feed {
    let limits = Limits {
        media_ids: 1, control_ids: 1, sections: 1, mfu_area: MOST_OBJECT as u64, message_area: MOST_MESSAGE as u64, table_area: 65_539,
        packets: 100_000, pass_scrambled: false,
    };
    Feed { limits, slack: 1, rows: 360, out, fill: None, steps }
}

/// Runs a case, which must leave what is held, records and drops as it says.
fn case(name: &str, steps: Vec<Step>, canvas: &Canvas, covered: &mut Covered, expected: [u64; 5]) {
    let feed = feed(steps, MOST_OBJECT);
    let mut run = Run::open(&feed, canvas, covered);
    feed.steps.iter().for_each(|s| run.step(s));
    run.step(&Step::Look);
    let found = run.outcome();
    let [held, dropped, joined, oversize, tables] = found;
    println!("{name}: held {held}, objects dropped {dropped}, joined {joined}, messages oversize {oversize}, tables {tables}");
    crate::differ::same(|| name.into(), &found, &expected);
}

pub fn all(covered: &mut Covered) {
    let canvas = Canvas::of_size(MOST_OBJECT);
    let (object, message) = (MOST_OBJECT as u64, MOST_MESSAGE as u64);
    let unit_case = |tail, end| parts(&object_bytes(MOST_OBJECT - 6 + tail), tail, end, unit);
    let message_case = |tail, end| parts(&message_bytes(MOST_MESSAGE - 6 + tail), tail, end, fragment);
    case("object 16,777,210 and 6", unit_case(6, 2), &canvas, covered, [object, 0, 0, 0, 0]);
    case("object 16,777,210 and a last of 6", unit_case(6, 3), &canvas, covered, [0, 0, 0, 0, 0]);
    case("object 16,777,210 and 7", unit_case(7, 2), &canvas, covered, [0, 1, 0, 0, 0]);
    case("object 16,777,210 and a last of 7", unit_case(7, 3), &canvas, covered, [0, 1, 0, 0, 0]);
    case("message 1,048,570 and 6", message_case(6, 2), &canvas, covered, [0, 0, message, 0, 0]);
    case("message 1,048,570 and a last of 6", message_case(6, 3), &canvas, covered, [0, 0, 0, 0, 16]);
    case("message 1,048,570 and 7", message_case(7, 2), &canvas, covered, [0, 0, 0, 1, 0]);
    case("message 1,048,570 and a last of 7", message_case(7, 3), &canvas, covered, [0, 0, 0, 1, 0]);
}
