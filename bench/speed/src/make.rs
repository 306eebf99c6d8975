//! Packets as a sender makes them. Their MMTP numbers are set by the feed.
use crate::crc;
use crate::feed::Bytes;

pub const PACKET: usize = 1400;
/// Where a timed unit's data starts in a packet: behind IP 3, MMTP 12, payload header 8, unit header 14.
pub const UNIT_AT: usize = 37;
/// Bytes of a timed unit in a packet of that size.
pub const UNIT: usize = PACKET - UNIT_AT;

/// Bytes behind their length in `width` bytes.
fn counted(width: usize, b: &[u8]) -> Vec<u8> {
    [&(b.len() as u32).to_be_bytes()[4 - width..], b].concat()
}

/// Bytes behind their length in 12 bits, above which stand ones.
fn counted12(b: &[u8]) -> Vec<u8> {
    [&(0xF000 | b.len() as u16).to_be_bytes(), b].concat()
}

/// Text of so many bytes.
fn text(n: usize) -> Vec<u8> {
    (0..n).map(|i| b'a' + (i * 7 % 26) as u8).collect()
}

fn mmtp(kind: u8, packet_id: u16, payload: &[u8]) -> Bytes {
    let [high, low] = packet_id.to_be_bytes();
    (3, [&[0x00, 0x10, 0x61, 0x00, kind, high, low, 0, 0, 0, 0, 0, 0, 0, 0], payload].concat())
}

/// A timed unit: 0 whole, 1 head, 2 middle, 3 last.
fn unit(packet_id: u16, part: u8, data: &[u8]) -> Bytes {
    let body = [&[0x28 | part << 1, 0, 0, 0, 0, 7, 0, 0, 0, 1, 0, 0, 0, 2, 0, 0, 0, 0, 1, 0], data].concat();
    mmtp(0, packet_id, &counted(2, &body))
}

pub fn whole_unit(packet_id: u16, bytes: usize) -> Bytes {
    unit(packet_id, 0, &text(bytes))
}

/// An object of so many bytes, divided over packets.
pub fn object(packet_id: u16, bytes: usize) -> Vec<Bytes> {
    let data = text(bytes);
    let last = (bytes - 1) / UNIT;
    let part = |i: usize| if i == 0 { 1 } else { 2 + u8::from(i == last) };
    data.chunks(UNIT).enumerate().map(|(i, c)| unit(packet_id, part(i), c)).collect()
}

/// An undivided message.
fn message(packet_id: u16, m: &[u8]) -> Bytes {
    mmtp(2, packet_id, &[&[0, 0], m].concat())
}

pub fn m2_section(packet_id: u16, section: &[u8]) -> Bytes {
    message(packet_id, &[&[0x80, 0x00, 0][..], &counted(2, section)].concat())
}

/// What names a section: its key and version.
#[derive(Clone, Copy)]
pub struct Name {
    pub table_id: u8,
    pub extension: u16,
    pub number: u8,
    pub version: u8,
}

fn section(n: Name, body: &[u8]) -> Vec<u8> {
    let length = 0xB000 | (body.len() + 9) as u16;
    let mut b = vec![n.table_id];
    b.extend(length.to_be_bytes());
    b.extend(n.extension.to_be_bytes());
    b.extend([0xC1 | n.version << 1, n.number, 255]);
    b.extend(body);
    b.extend(crc::by_bytes(&b).to_be_bytes());
    b
}

fn event(id: u16) -> Vec<u8> {
    let short = [&b"jpn"[..], &counted(1, &text(30)), &counted(2, &text(90))].concat();
    let descriptors = [&[0xF0, 0x01][..], &counted(2, &short), &[0x80, 0x12, 2, 0x31, 0xFF]].concat();
    [&id.to_be_bytes()[..], &[0xED, 0x52, 0x19, 0, 0, 0x01, 0x30, 0], &counted12(&descriptors)].concat()
}

/// An EIT with two events, some 310 bytes.
pub fn eit(n: Name) -> Vec<u8> {
    section(n, &[&[0xB5, 0xA0, 0, 11, 255, 0x8B][..], &event(1001), &event(1002)].concat())
}

/// A TLV-NIT with a name and two streams.
pub fn nit(n: Name) -> Vec<u8> {
    let name = [&[0x40][..], &counted(1, &text(20))].concat();
    let services = [&[0x41][..], &counted(1, &[1, 0x91, 1, 1, 0x92, 1])].concat();
    let satellite = [&[0x43][..], &counted(1, &[1, 0x17, 0x27, 0x48, 1, 0x10, 0xE5, 0, 3, 0x37, 0x56])].concat();
    let loop_ = counted12(&[services, satellite].concat());
    let streams = [&[0xB5, 0xA0, 0, 11][..], &loop_, &[0xB5, 0xA1, 0, 11], &loop_].concat();
    section(n, &[counted12(&name), counted12(&streams)].concat())
}

/// A control packet with one section behind a header of 4 bytes.
pub fn control(section: &[u8]) -> Bytes {
    (0xFE, [&[0, 0, 0, 0], section].concat())
}

/// Bytes that repeat a pattern: what looks like the start of a section and is none.
pub fn false_starts(pattern: &[u8]) -> Bytes {
    (0xFE, pattern.iter().copied().cycle().take(PACKET).collect())
}

fn asset(id: u8, kind: &[u8; 4], packet_id: u16) -> Vec<u8> {
    let tag = [0x80, 0x11, 2, 0, id];
    let times: Vec<u8> = (0..4).flat_map(|i| [0, 0, 0, i, 0xED, 0x52, 0x19, 0, 0, 0, 0, 0]).collect();
    let descriptors = [&tag[..], &[0, 1], &counted(1, &times)].concat();
    let [high, low] = packet_id.to_be_bytes();
    [&[0, 0, 0, 0, 0, 2, 0xF1, id][..], kind, &[0xFE, 1, 0, high, low], &counted(2, &descriptors)].concat()
}

/// An MPT of four assets, each with its tag and the times of four MPUs.
fn mpt(version: u8) -> Vec<u8> {
    let kinds = [b"hev1", b"mp4a", b"mp4a", b"stpp"];
    let assets: Vec<u8> = (0..4).flat_map(|i| asset(i, kinds[usize::from(i)], 0xF100 + u16::from(i))).collect();
    let body = [&[0, 4, 0, 11, 1, 0x91, 0, 0, 4][..], &assets].concat();
    [&[0x20, version][..], &counted(2, &body)].concat()
}

/// A PLT of four packages.
fn plt(version: u8) -> Vec<u8> {
    let packages: Vec<u8> = (0..4).flat_map(|i| [4, 0, 11, 1, 0x91 + i, 0, 0x80, i]).collect();
    let body = [&[4][..], &packages, &[0]].concat();
    [&[0x80, version][..], &counted(2, &body)].concat()
}

/// A PA message with an MPT and a PLT.
pub fn pa(packet_id: u16, version: u8) -> Bytes {
    let (m, p) = (mpt(version), plt(version));
    let body = [&[2][..], &m[..4], &p[..4], &m, &p].concat();
    message(packet_id, &[&[0, 0, version][..], &counted(4, &body)].concat())
}
