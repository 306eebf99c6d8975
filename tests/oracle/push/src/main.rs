//! Feeds pushed through the Rust's decoder. A feed is a line with the setting (`1`: scrambled payloads are passed on), then lines of
//! `KIND HEX` up to a line `--`. For each it writes the numbers that tests/oracle/feeds compares, `|`, and the keys that are kept,
//! with the version and the bytes of each behind another `|`; behind a last one, for some packet ids, the asset that each carries: the
//! id, then 0, or 1, the service id and 1 or 0 for none, the asset's type, the length of its id and the id.
use isdb_mmt::decoder::Decoder;
use isdb_mmt::mpu::{AssetStats, Mfu, MfuHeader};
use isdb_tlv::tlv::{Packet, PacketType};
use push::kept::{Carried, version};
use push::{counters, counts};
use std::io::Read;

fn packet(line: &str) -> Packet {
    let (kind, hex) = line.split_once(' ').unwrap();
    Packet {
        kind: PacketType::from_byte(kind.parse().unwrap()),
        data: (0..hex.len() / 2).map(|i| u8::from_str_radix(&hex[2 * i..2 * i + 2], 16).unwrap()).collect(),
    }
}

/// Bytes behind their length; 0 and nothing where there are none, else the length is 1 more.
fn spelt(b: Option<&[u8]>) -> Vec<u64> {
    b.map_or(vec![0], |b| std::iter::once(1 + b.len() as u64).chain(b.iter().map(|&x| x.into())).collect())
}

fn asset(s: &AssetStats) -> Vec<u64> {
    let (seen, first, last) = s.mpu_range.map_or((0, 0, 0), |r| (1, r.0.into(), r.1.into()));
    counts(s).iter().map(|c| c.1).chain([seen, first, last]).collect()
}

fn header(h: &MfuHeader) -> Vec<u64> {
    vec![
        1, h.movie_fragment_sequence_number.into(), h.sample_number.into(), h.offset.into(), h.priority.into(),
        h.dependency_counter.into(),
    ]
}

fn record(m: &Mfu) -> Vec<u64> {
    let mut v = vec![m.packet_id.into(), m.scrambled.into(), m.rap.into(), m.mpu_sequence_number.into()];
    v.extend(m.header.as_ref().map_or(vec![0], header));
    v.push(m.item_id.map_or(0, |i| 1 + u64::from(i)));
    v.push(m.data.len() as u64);
    v.extend(m.data.iter().map(|&x| u64::from(x)));
    v
}

/// What `asset_of` answers of every packet id that a kept MPT names, and of two more.
fn carried_assets(d: &Decoder) -> Vec<u64> {
    let mut ids: Vec<u16> = d.mpts.values().flat_map(|m| m.assets.iter().filter_map(|a| a.packet_id())).collect();
    ids.extend([0xF100, 0xF101]);
    ids.sort_unstable();
    ids.dedup();
    let one = |id: u16| {
        let mut v = vec![u64::from(id)];
        match d.asset_of(id) {
            None => v.push(0),
            Some((service, a)) => {
                v.extend([1, service.map_or(0, |s| 1 + u64::from(s)), u64::from(u32::from_be_bytes(a.asset_type))]);
                v.extend(spelt(Some(&a.asset_id)));
            }
        }
        v
    };
    ids.into_iter().flat_map(one).collect()
}

/// A section's version and its bytes.
fn section((_, b): &(u32, &[u8])) -> Vec<u64> {
    let mut all = vec![version(b).into()];
    all.extend(spelt(Some(b)));
    all
}

fn words(v: impl Iterator<Item = u64>) -> String {
    v.map(|x| x.to_string()).collect::<Vec<_>>().join(" ")
}

fn answer(feed: &str) -> String {
    let before = isdb_mmt::desc::split_errors();
    let (mut d, mut out, mut carried) = (Decoder::new(), Vec::new(), Carried::default());
    let (setting, packets) = feed.split_once('\n').unwrap();
    d.set_pass_scrambled(setting == "1");
    for line in packets.lines() {
        d.push(&packet(line), &mut out);
        carried.push(&packet(line));
    }
    let mut v: Vec<u64> = counters(&d, isdb_mmt::desc::split_errors() - before).iter().map(|c| c.1).collect();
    for id in [0xF100, 0xF101] {
        v.extend(asset(&d.mpu_stats().find(|x| x.0 == id).map(|x| x.1.clone()).unwrap_or_default()));
    }
    v.push(out.len() as u64);
    v.extend(out.iter().flat_map(record));
    v.push(d.ntp.map_or(0, |t| t + 1));
    v.extend(spelt(carried.plt(&d)));
    v.extend(spelt(carried.tot(&d)));
    for id in [0, 0x8001] {
        v.extend(spelt(carried.mpt(&d, id)));
    }
    let keys = carried.sections(&d);
    v.extend([keys.len() as u64, d.other_tables.values().sum()]);
    v.extend([0, 0x10, 0x21, 0x81, 0xA2, 0xC0].map(|id| d.other_tables.get(&id).copied().unwrap_or(0)));
    let (of, bytes) = (words(keys.iter().map(|k| k.0.into())), words(keys.iter().flat_map(section)));
    format!("{}|{of}|{bytes}|{}", words(v.into_iter()), words(carried_assets(&d).into_iter()))
}

fn main() {
    let mut text = String::new();
    std::io::stdin().read_to_string(&mut text).unwrap();
    for feed in text.split("--\n").filter(|f| !f.is_empty()) {
        println!("{}", answer(feed));
    }
}
