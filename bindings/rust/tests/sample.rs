//! The sample recording: what a session says of it is what feeddump writes. Compared are all lines of packets, records, counts, ids and
//! held objects in full, and of the kept tables and joined messages the start of each line.
use isdb::{Key, Limits, MfuHeader, Record, Session};
use std::fmt::Write;

const LIMITS: Limits = Limits {
    media_ids: 16,
    control_ids: 16,
    sections: 128,
    mfu_area: 131_072,
    message_area: 65_536,
    table_area: 8_192,
    packets: 4_294_967_295,
    pass_scrambled: true,
};

fn crc32(bytes: &[u8]) -> u32 {
    bytes
        .iter()
        .fold(u32::MAX, |crc, b| (0..8).fold(crc ^ u32::from(*b) << 24, |c, _| c << 1 ^ if c >> 31 == 1 { 0x04C1_1DB7 } else { 0 }))
}

fn hex(bytes: &[u8]) -> String {
    if bytes.is_empty() {
        return "-".into();
    }
    bytes.iter().map(|b| format!("{b:02x}")).collect()
}

/// A record's 36 bytes as the library wrote them, its data's length and CRC.
fn record(r: Record<'_>, start: usize) -> String {
    let none = MfuHeader { movie_fragment_sequence_number: 0, sample_number: 0, offset: 0, priority: 0, dependency_counter: 0 };
    let h = r.header.unwrap_or(none);
    let flag = |b: bool, bit: u8| u8::from(b) << bit;
    let flags = flag(r.rap, 0) | flag(r.scrambled, 1) | flag(r.header.is_some(), 2) | flag(r.item_id.is_some(), 3);
    let mut row = r.packet_id.to_be_bytes().to_vec();
    row.extend([flags, 0]);
    for n in [r.mpu_sequence_number, h.movie_fragment_sequence_number, h.sample_number, h.offset] {
        row.extend(n.to_be_bytes());
    }
    row.extend([h.priority, h.dependency_counter, 0, 0]);
    for n in [r.item_id.unwrap_or(0), start as u32, r.data.len() as u32] {
        row.extend(n.to_be_bytes());
    }
    format!("{} {} {:08x}", hex(&row), r.data.len(), crc32(r.data))
}

fn pushed(s: &mut Session, mut recording: &[u8], out: &mut String) -> std::fmt::Result {
    let mut i = 0;
    while let [0x7F, kind, high, low, rest @ ..] = recording {
        let (data, next) = rest.split_at(u16::from_be_bytes([*high, *low]).into());
        let records = s.push(*kind, data).unwrap();
        let bytes: usize = records.clone().map(|r| r.data.len()).sum();
        writeln!(out, "packet {i} kind {kind:02x} length {} records {} bytes {bytes}", data.len(), records.len())?;
        let mut start = 0;
        for r in records {
            writeln!(out, "mfu {}", record(r, start))?;
            start += r.data.len();
        }
        recording = next;
        i += 1;
    }
    writeln!(out, "end packets {i}")
}

fn counts(s: &Session, out: &mut String) -> std::fmt::Result {
    let c = s.counters();
    for (name, n) in [("tlv_packets", c.tlv_packets), ("ip_errors", c.ip_errors), ("non_mmtp", c.non_mmtp), ("ntp", c.ntp)] {
        writeln!(out, "counter {name} {n}")?;
    }
    for (name, n) in
        [("tables", c.tables), ("crc_errors", c.crc_errors), ("malformed", c.malformed), ("version_changes", c.version_changes)]
    {
        writeln!(out, "counter {name} {n}")?;
    }
    for (name, n) in [("orphan_fragments", c.orphan_fragments), ("oversize", c.oversize), ("malformed", c.message_malformed)] {
        writeln!(out, "counter message_{name} {n}")?;
    }
    writeln!(out, "counter split_errors {}", c.split_errors)?;
    writeln!(out, "ntp {:016x}", s.time().unwrap())
}

fn media(s: &Session, id: u16, out: &mut String) -> std::fmt::Result {
    let m = s.media(id).unwrap();
    write!(out, "media {id} packets {} packets_lost {} scrambled_packets {} ", m.packets, m.packets_lost, m.scrambled_packets)?;
    write!(out, "mfus {} scrambled_mfus {} mfus_dropped {} mpus {} ", m.mfus, m.scrambled_mfus, m.mfus_dropped, m.mpus)?;
    writeln!(out, "mpu_sequence_jumps {} malformed {}", m.mpu_sequence_jumps, m.malformed)?;
    match m.mpu_range {
        Some((first, last)) => writeln!(out, "media {id} mpu_range {first} {last}")?,
        None => writeln!(out, "media {id} mpu_range none")?,
    }
    writeln!(out, "media {id} last_sequence {}", m.last_sequence.unwrap())?;
    assert_eq!(m.held, s.held(id).map(|h| h.data.len() as u32));
    match s.held(id) {
        Some(h) => {
            let r = Record {
                packet_id: id,
                rap: h.rap,
                scrambled: false,
                mpu_sequence_number: h.mpu_sequence_number,
                header: h.header,
                item_id: h.item_id,
                data: h.data,
            };
            writeln!(out, "media {id} held {}", record(r, 0))?;
        }
        None => writeln!(out, "media {id} held none")?,
    }
    match s.asset_of(id) {
        Some(x) => {
            assert_eq!(s.mpt(x.control_id), Some(x.mpt));
            let service = x.service_id.map_or("none".into(), |n| n.to_string());
            writeln!(out, "media {id} asset_of service {service} type {} id {}", hex(&x.asset.asset_type), hex(x.asset.asset_id))
        }
        None => writeln!(out, "media {id} asset_of none"),
    }
}

fn controls(s: &Session, out: &mut String) -> std::fmt::Result {
    for id in s.control_ids() {
        let c = s.control(id).unwrap();
        writeln!(out, "control {id} last_sequence {}", c.last_sequence.unwrap())?;
        writeln!(out, "control {id} held {}", if c.joined.is_some() { "long_length" } else { "none" })?;
    }
    for id in 0..=255 {
        let n = s.table_count(id);
        if n > 0 {
            writeln!(out, "other {id:#04x} {n}")?;
        }
    }
    Ok(())
}

fn tables(s: &Session, out: &mut String) -> std::fmt::Result {
    for id in s.control_ids() {
        if let Some(t) = s.mpt(id) {
            writeln!(out, "mpt {id} table_id {:#04x} version {}", t[0], t[1])?;
        }
    }
    writeln!(out, "plt version {}", s.plt().unwrap()[1])?;
    let sorts = [("eit", 0x8B..=0x9B), ("sdt", 0x9F..=0xA0), ("bit", 0x9D..=0x9D), ("nit", 0x40..=0x41), ("amt", 0xFE..=0xFE)];
    for (sort, ids) in sorts {
        for key in s.keys(ids) {
            let Key { table_id, extension, section_number } = key;
            let t = s.section(key).unwrap();
            assert_eq!(crc32(t), 0);
            write!(out, "{sort} key {table_id:#04x} {extension} {section_number} ")?;
            writeln!(out, "header {:#04x} {} {}", t[0], u16::from_be_bytes([t[3], t[4]]), t[6])?;
        }
    }
    writeln!(out, "tot jst {}", hex(&s.tot().unwrap()[3..8]))
}

#[test]
fn as_feeddump() {
    let mut s = Session::open(LIMITS).unwrap();
    let mut out = String::new();
    pushed(&mut s, include_bytes!("../../../crates/feeddump/stdin"), &mut out).unwrap();
    counts(&s, &mut out).unwrap();
    for id in s.media_ids() {
        media(&s, id, &mut out).unwrap();
    }
    controls(&s, &mut out).unwrap();
    tables(&s, &mut out).unwrap();

    let text = include_str!("../../../crates/feeddump/stdout");
    let lines: Vec<_> = text.lines().filter(|l| !l.starts_with(' ')).collect();
    assert_eq!(lines.len(), out.lines().count());
    for (line, said) in lines.iter().zip(out.lines()) {
        // Where a line is only begun here, the next word starts behind a space.
        assert!(*line == said || line.starts_with(&format!("{said} ")), "feeddump: {line}\nsession: {said}");
    }
}
