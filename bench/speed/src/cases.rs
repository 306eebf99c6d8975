//! What is measured.
use crate::feed::{Bytes, Feed};
use crate::make::{self, Name};

/// A feed that is pushed again and again into a session that has taken the packets of `before`.
pub struct Case {
    pub name: String,
    pub before: Feed,
    pub feed: Feed,
    /// What a pass over the feed hands out and counts, once it has been pushed: records, tables, version changes.
    pub pass: [u64; 3],
    /// So many bytes are lent to `push_all` at once.
    pub window: usize,
}

/// What a host reads at once where nothing else is said, and a large read.
const WINDOW: usize = 65_536;
const LARGE_WINDOW: usize = 262_144;

/// Packets of a feed, so few that they stay in a cache of the second level.
const BATCH: usize = 256;
const MESSAGES: u16 = 0x8000;
const KEPT: u16 = 0x8001;

fn case(name: impl Into<String>, packets: Vec<Bytes>, pass: [usize; 3]) -> Case {
    Case { name: name.into(), before: Feed::of(Vec::new()), feed: Feed::of(packets), pass: pass.map(|n| n as u64), window: WINDOW }
}

/// Keys of an EIT family: table ids from 8Bh on, 16 services, every eighth section number.
fn family(i: usize, version: u8) -> Name {
    Name { table_id: 0x8B + (i / 128) as u8, extension: 101 + 10 * (i / 8 % 16) as u16, number: 8 * (i % 8) as u8, version }
}

fn kept(sections: usize) -> Feed {
    Feed::of((0..sections).map(|i| make::m2_section(KEPT, &make::eit(family(i, 3)))).collect())
}

fn media(ids: usize, sections: usize) -> Case {
    let packets = (0..BATCH).map(|i| make::whole_unit(0xF100 + (i % ids) as u16, make::UNIT)).collect();
    let plural = if ids == 1 { "" } else { "s" };
    let name = format!("media packet, a whole unit, {ids} id{plural}, {sections} sections kept");
    Case { before: kept(sections), ..case(name, packets, [BATCH, 0, 0]) }
}

/// The same, with more packets in a call.
fn in_large_windows(c: Case) -> Case {
    Case { name: format!("{}, windows of {LARGE_WINDOW} bytes", c.name), window: LARGE_WINDOW, ..c }
}

fn objects(count: usize, bytes: usize) -> Case {
    let packets = (0..count).flat_map(|_| make::object(0xF100, bytes)).collect();
    case(format!("media packet, a part of an object of {bytes} bytes"), packets, [count, 0, 0])
}

/// Whole units of so many bytes, one packet each.
pub fn units(bytes: usize) -> Case {
    let packets = (0..16).map(|_| make::whole_unit(0xF100, bytes)).collect();
    let plural = if bytes == 1 { "" } else { "s" };
    case(format!("media packet, a whole unit of {bytes} byte{plural}"), packets, [16, 0, 0])
}

/// 32 keys in turn, each with another version in every turn, or always with the same.
fn eits(changing: bool) -> Case {
    let version = |i: usize| if changing { (i / 32) as u8 } else { 3 };
    let packets = (0..BATCH).map(|i| make::m2_section(MESSAGES, &make::eit(family(i % 32, version(i))))).collect();
    let (how, changes) = if changing { ("a new version", BATCH) } else { ("the kept version", 0) };
    case(format!("M2 section message, an EIT of {how}"), packets, [0, BATCH, changes])
}

fn pa() -> Case {
    case("PA message, an MPT and a PLT", (0..BATCH).map(|_| make::pa(0, 1)).collect(), [0, 2 * BATCH, 0])
}

fn control() -> Case {
    let nit = make::nit(Name { table_id: 0x40, extension: 11, number: 0, version: 3 });
    case("control packet, a good section of the kept version", (0..BATCH).map(|_| make::control(&nit)).collect(), [0, BATCH, 0])
}

/// FEh alone starts sections that run past the end; FEh 81h 40h ones of 323 bytes, which only their CRC refuses.
fn scan(name: &str, pattern: &[u8], packets: usize) -> Case {
    case(format!("control packet, {name}"), (0..packets).map(|_| make::false_starts(pattern)).collect(), [0, 0, 0])
}

pub fn all() -> Vec<Case> {
    let mut cases: Vec<Case> = [0, 4, 100, 300, 512].map(|sections| media(8, sections)).into();
    cases.push(in_large_windows(media(8, 512)));
    cases.extend([1, 32, 64].map(|ids| media(ids, 0)));
    cases.extend([media(64, 512), in_large_windows(media(64, 512))]);
    cases.extend([objects(32, 10_000), objects(4, 100_000), objects(1, 1_000_000), eits(false), eits(true), pa(), control()]);
    cases.push(scan("false starts that run past the end (FEh)", &[0xFE], BATCH));
    cases.push(scan("false starts that their CRC refuses", &[0xFE, 0x81, 0x40], 8));
    cases
}
