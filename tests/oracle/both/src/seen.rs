//! What is seen of a session: by the library's readings, by its bytes, and of the Rust's decoder.
use crate::calls::{Memory, NO_ID, NOTHING, Numbers, Said};
use crate::debug_text::{Shown, private_text};
use crate::differ::{differ, same};
use crate::layout::{self, Areas, Head};
use isdb_mmt::decoder::Decoder;
use isdb_mmt::mpu::AssetStats;

#[derive(Debug, PartialEq)]
pub struct Held {
    pub mpu: u32,
    pub rap: bool,
    pub header: Option<[u32; 5]>,
    pub item: Option<u32>,
    pub data: Vec<u8>,
}

pub struct Media {
    pub id: u32,
    pub counts: [u64; 9],
    pub range: Option<(u32, u32)>,
    pub sequence: Option<u32>,
    pub held: Option<Held>,
}

#[derive(Debug, PartialEq)]
pub struct Control {
    pub id: u32,
    pub sequence: Option<u32>,
    pub joined: Option<usize>,
}

/// A message being joined: its control id, long lengths, aggregated, its bytes so far.
pub type Joined = (u32, bool, bool, Vec<u8>);

pub struct Seen {
    pub counters: [u64; 12],
    pub time: Option<u64>,
    pub media: Vec<Media>,
    pub controls: Vec<Control>,
}

impl Seen {
    /// Ends the run where another differs, with what of it does.
    pub fn held_against(&self, whose: &str, other: &Seen) {
        same(|| format!("counters, {whose}"), &self.counters, &other.counters);
        same(|| format!("the time, {whose}"), &self.time, &other.time);
        let ids = |s: &Seen| (s.media.iter().map(|m| m.id).collect::<Vec<_>>(), s.controls.iter().map(|c| c.id).collect::<Vec<_>>());
        same(|| format!("media and control ids, {whose}"), &ids(self), &ids(other));
        for (here, there) in self.media.iter().zip(&other.media) {
            let id = here.id;
            same(|| format!("counts of media id {id}, {whose}"), &here.counts, &there.counts);
            same(|| format!("MPU range of media id {id}, {whose}"), &here.range, &there.range);
            same(|| format!("last number of media id {id}, {whose}"), &here.sequence, &there.sequence);
            same(|| format!("held object of media id {id}, {whose}"), &here.held, &there.held);
        }
        same(|| format!("control ids, {whose}"), &self.controls, &other.controls);
    }
}

/// The numbers, or none where there is nothing; no other code may come.
pub fn told(what: &str, said: Said) -> Option<Numbers> {
    match said {
        Ok(v) => Some(v),
        Err(NOTHING) => None,
        Err(code) => differ(format!("{what}: code {code}")),
    }
}

/// All names by stepping, from 0 on.
fn names(what: &str, step: impl Fn(u32) -> Said) -> Vec<u32> {
    let (mut found, mut from) = (Vec::new(), Some(0u32));
    while let Some(v) = from.and_then(|from| told(what, step(from))) {
        let name = v[0] as u32;
        if u64::from(name) != v[0] || name < from.unwrap() || found.len() > 1000 {
            differ(format!("{what}: {} after {found:?}", v[0]));
        }
        found.push(name);
        from = name.checked_add(1);
    }
    found
}

pub fn keys(m: &Memory, first: u32, last: u32) -> Vec<u32> {
    names("isdb_next_key", |from| m.next_key(from.max(first), last))
}

fn pair(v: &[u64]) -> Option<u32> {
    match v[0] {
        0 if v[1] == 0 => None,
        1 => Some(v[1] as u32),
        _ => differ(format!("a number that may be absent is {} {}", v[0], v[1])),
    }
}

fn held_by_readings(m: &Memory, id: u32) -> Option<Held> {
    let v = told("isdb_held", m.held(id))?;
    let header = (v[2] == 1).then(|| std::array::from_fn(|i| v[3 + i] as u32));
    if header.is_none() && v[2..8] != [0; 6] {
        differ(format!("isdb_held {id}: an absent header is {:?}", &v[2..8]));
    }
    let (start, length) = (v[10] as usize, v[11] as usize);
    Some(Held { mpu: v[0] as u32, rap: v[1] != 0, header, item: pair(&v[8..10]), data: m.objects[start..start + length].to_vec() })
}

fn media_by_readings(m: &Memory, id: u32) -> Media {
    let Some(v) = told("isdb_media", m.media(id)) else { differ(format!("isdb_media {id}: nothing")) };
    let range = (v[9] == 1).then_some((v[10] as u32, v[11] as u32));
    if range.is_none() && v[9..12] != [0; 3] {
        differ(format!("isdb_media {id}: an absent range is {:?}", &v[9..12]));
    }
    let held = held_by_readings(m, id);
    if pair(&v[14..16]).map(|n| n as usize) != held.as_ref().map(|h| h.data.len()) {
        differ(format!("isdb_media {id} and isdb_held do not agree: {v:?} {held:?}"));
    }
    Media { id, counts: v[..9].try_into().unwrap(), range, sequence: pair(&v[12..14]), held }
}

fn control_by_readings(m: &Memory, id: u32) -> Control {
    let Some(v) = told("isdb_control", m.control(id)) else { differ(format!("isdb_control {id}: nothing")) };
    Control { id, sequence: pair(&v[..2]), joined: pair(&v[2..4]).map(|n| n as usize) }
}

/// By the library's readings, none of which may be turned down.
pub fn by_readings(m: &Memory) -> Seen {
    let Some(v) = told("isdb_counters", m.counters()) else { differ("isdb_counters: nothing".into()) };
    let (ids, controls) = (names("isdb_next_media", |from| m.next_media(from)), names("isdb_next_control", |from| m.next_control(from)));
    let absent = (0..).find(|id| !ids.contains(id)).unwrap();
    if m.held(absent) != Err(NO_ID) || m.media(absent) != Err(NOTHING) {
        differ(format!("media id {absent} is not in use, yet {:?} {:?}", m.held(absent), m.media(absent)));
    }
    Seen {
        counters: v[..12].try_into().unwrap(),
        time: told("isdb_time", m.time()).map(|v| v[0]),
        media: ids.iter().map(|&id| media_by_readings(m, id)).collect(),
        controls: controls.iter().map(|&id| control_by_readings(m, id)).collect(),
    }
}

/// By the session's bytes as they are laid out.
pub fn by_bytes(m: &Memory) -> (Seen, Vec<Joined>) {
    let (b, h) = (&m.state, Head::of(&m.state));
    let areas = Areas::of(h.limits);
    let held = |i: usize, o: layout::Held| Held {
        mpu: o.mpu, rap: o.rap, header: o.header, item: o.item, data: areas.object(m, i, o.length).to_vec(),
    };
    let one = |(i, x): (usize, layout::Media)| Media {
        id: x.id, counts: x.counts, range: x.range, sequence: x.sequence, held: x.held.map(|o| held(i, o)),
    };
    let mut media: Vec<Media> = layout::media(b, h.used[0]).enumerate().map(one).collect();
    media.sort_by_key(|x| x.id);
    let (mut controls, mut joined) = (Vec::new(), Vec::new());
    for (i, x) in layout::controls(b, h.used[1]).enumerate() {
        controls.push(Control { id: x.id, sequence: x.sequence, joined: x.joined.as_ref().map(|j| j.length) });
        joined.extend(x.joined.map(|j| (x.id, j.long, j.aggregated, areas.message(m, i, j.length).to_vec())));
    }
    controls.sort_by_key(|x| x.id);
    joined.sort();
    (Seen { counters: h.counters, time: h.time, media, controls }, joined)
}

fn counts(s: &AssetStats) -> [u64; 9] {
    [
        s.packets, s.packets_lost, s.scrambled_packets, s.mfus, s.scrambled_mfus, s.mfus_dropped, s.mpus, s.mpu_sequence_jumps, s.malformed,
    ]
}

fn held_of_rust(o: &Shown) -> Held {
    const HEADER: [&str; 5] = ["movie_fragment_sequence_number", "sample_number", "offset", "priority", "dependency_counter"];
    Held {
        mpu: o.of("mpu_sequence_number").number(),
        rap: o.of("rap").flag(),
        header: o.of("header").some().map(|h| HEADER.map(|name| h.of(name).number())),
        item: o.of("item_id").some().map(Shown::number),
        data: o.of("data").bytes.clone(),
    }
}

/// Of the Rust's decoder; `splits` is what its descriptor loops have added to the process's count.
pub fn of_rust(d: &Decoder, splits: u64) -> (Seen, Vec<Joined>) {
    let text = private_text(d);
    let shown = Shown::read(&mut &text[..]);
    let media = d.mpu_stats().map(|(id, s)| {
        let state = shown.of("mpu").of("assets").of(&id.to_string());
        let (sequence, held) = (state.of("last_seq").some().map(Shown::number), state.of("partial").some().map(held_of_rust));
        Media { id: id.into(), counts: counts(s), range: s.mpu_range, sequence, held }
    });
    let partial = shown.of("messages").of("partial");
    let control = |(id, n): &(&str, Shown)| Control {
        id: id.parse().unwrap(), sequence: Some(n.number()), joined: partial.find(id).map(|p| p.of("buf").bytes.len()),
    };
    let joined = |(id, p): &(&str, Shown)| {
        (id.parse().unwrap(), p.of("long_len").flag(), p.of("aggregated").flag(), p.of("buf").bytes.clone())
    };
    let (c, e) = (&d.counters, &d.counters.message_errors);
    let seen = Seen {
        counters: [
            c.tlv_packets, c.ip_errors, c.non_mmtp, c.ntp, c.tables, c.crc_errors, c.malformed, c.version_changes, e.orphan_fragments,
            e.oversize, e.malformed, splits,
        ],
        time: d.ntp,
        media: media.collect(),
        controls: shown.of("last_ctrl_seq").parts.iter().map(control).collect(),
    };
    (seen, partial.parts.iter().map(joined).collect())
}
