//! What a packet needs of a session with unlimited memory, by the Rust files' own parsers, and a shadow of the session that knows just
//! enough for it: last numbers, held lengths, messages being joined, and the tables kept, as their bytes.
use crate::calls::Memory;
use crate::layout::{self, Areas, Head};
use isdb_mmt::message::{MAX_MESSAGE, Messages, TableBytes};
use isdb_mmt::mpu::{self, FragmentationIndicator, MAX_MFU};
use isdb_mmt::table::{self, Amt, Bit, Eit, Mpt, Nit, Plt, Sdt, Tot};
use isdb_tlv::ip::{compressed, ipv4, ipv6};
use isdb_tlv::mmtp::{self, Header, PayloadType};
use std::collections::BTreeMap;

#[derive(Default, Debug, PartialEq)]
pub struct Needs {
    pub media: usize,
    pub control: usize,
    pub keys: usize,
    pub object: usize,
    pub message: usize,
    pub table: usize,
    pub records: usize,
    pub bytes: usize,
}

#[derive(Default, Debug, Clone, Copy, PartialEq)]
pub struct Line {
    pub last: Option<u32>,
    pub held: Option<usize>,
}

#[derive(Debug, PartialEq)]
pub struct Part {
    /// Long lengths, aggregated: as bits 1 and 0 of the first fragment.
    pub flags: u8,
    pub bytes: Vec<u8>,
}

#[derive(Default, Debug, PartialEq)]
pub struct Joining {
    pub last: Option<u32>,
    pub part: Option<Part>,
}

#[derive(Default, Debug, PartialEq)]
pub struct Shadow {
    pub taken: u64,
    pub media: BTreeMap<u32, Line>,
    pub control: BTreeMap<u32, Joining>,
    /// By key: the version and the bytes.
    pub kept: BTreeMap<u32, (u8, Vec<u8>)>,
    pub mpts: BTreeMap<u32, Vec<u8>>,
    pub plt: Option<Vec<u8>>,
    pub tot: Option<Vec<u8>>,
}

/// What becomes of the message that is being joined.
pub enum Fragment {
    Stays,
    Gone,
    Begins(Part),
    GoesOn(Vec<u8>),
}

/// What taking the packet changes.
pub enum Change {
    Media(u32, Line),
    Control(u32, u32, Fragment),
    Section(u32, u8, Vec<u8>),
    Mpt(u32, Vec<u8>),
    Plt(Vec<u8>),
    Tot(Vec<u8>),
}

/// A packet's needs and changes, as they come up.
#[derive(Default)]
pub struct Outcome {
    pub needs: Needs,
    pub changes: Vec<Change>,
    /// Objects of more than one unit that it hands out.
    pub joined: u64,
}

pub fn key_of(b: &[u8]) -> u32 {
    u32::from_be_bytes([b[0], b[3], b[4], b[6]])
}

fn declared_section(b: &[u8]) -> &[u8] {
    &b[..3 + (usize::from(b[1] & 15) << 8 | usize::from(b[2]))]
}

fn declared_table(b: &[u8]) -> &[u8] {
    &b[..4 + (usize::from(b[2]) << 8 | usize::from(b[3]))]
}

/// Whether a section parses as the table that an id names; ids that name none are EITs.
pub fn parses_as(id: u8, b: &[u8]) -> bool {
    match id {
        0x9D => Bit::parse(b).is_ok(),
        0x9F | 0xA0 => Sdt::parse(b).is_ok(),
        0x40 | 0x41 => Nit::parse(b).is_ok(),
        0xFE => Amt::parse(b).is_ok(),
        _ => Eit::parse(b).is_ok(),
    }
}

/// The tables of a whole message, cut by the Rust's own hand.
fn tables_of(flags: u8, data: &[u8]) -> Vec<TableBytes> {
    let mut payload = vec![flags & 3, 0];
    payload.extend_from_slice(data);
    let mut tables = Vec::new();
    Messages::new().push(0, &payload, false, &mut tables);
    tables
}

impl Outcome {
    fn keeps(&mut self, bytes: &[u8], change: Change) {
        self.needs.table = self.needs.table.max(bytes.len());
        self.changes.push(change);
    }

    /// The version kept for a key by now: by this packet, or before it.
    fn version(&self, s: &Shadow, key: u32) -> Option<u8> {
        let now = self.changes.iter().rev().find_map(|c| match c {
            Change::Section(k, v, _) if *k == key => Some(*v),
            _ => None,
        });
        now.or_else(|| s.kept.get(&key).map(|k| k.0))
    }

    fn section(&mut self, s: &Shadow, b: &[u8]) {
        let Ok((header, _)) = table::long_section(b) else { return };
        let key = key_of(b);
        let old = self.version(s, key);
        if old == Some(header.version) || !parses_as(b[0], b) {
            return;
        }
        self.needs.keys += usize::from(old.is_none());
        let b = declared_section(b);
        self.keeps(b, Change::Section(key, header.version, b.to_vec()));
    }

    fn table(&mut self, s: &Shadow, control: u32, b: &[u8]) {
        match b.first() {
            Some(0x11..=0x20) if Mpt::parse(b).is_some() => {
                let b = declared_table(b);
                self.keeps(b, Change::Mpt(control, b.to_vec()));
            }
            Some(0x80) if Plt::parse(b).is_some() => {
                let b = declared_table(b);
                self.keeps(b, Change::Plt(b.to_vec()));
            }
            Some(0xA1) if Tot::parse(b).is_ok() => {
                let b = declared_section(b);
                self.keeps(b, Change::Tot(b.to_vec()));
            }
            Some(0x8B..=0x9B | 0x9D | 0x9F | 0xA0) if b.len() >= 7 => self.section(s, b),
            _ => {}
        }
    }

    fn whole_message(&mut self, s: &Shadow, control: u32, flags: u8, data: &[u8]) {
        for t in tables_of(flags, data) {
            self.table(s, control, &t.bytes);
        }
    }

    fn message(&mut self, s: &Shadow, h: &Header, payload: &[u8]) {
        let (id, old) = (u32::from(h.packet_id), s.control.get(&u32::from(h.packet_id)));
        self.needs.control = usize::from(old.is_none());
        let [flags, _, data @ ..] = payload else {
            return self.changes.push(Change::Control(id, h.sequence, Fragment::Stays));
        };
        let follows = old.and_then(|o| o.last).is_none_or(|l| h.sequence == l.wrapping_add(1));
        let part = old.and_then(|o| o.part.as_ref()).filter(|_| follows);
        let fragment = match (flags >> 6, part) {
            (0, _) => {
                self.whole_message(s, id, *flags, data);
                Fragment::Gone
            }
            (1, _) => {
                self.needs.message = data.len();
                Fragment::Begins(Part { flags: flags & 3, bytes: data.to_vec() })
            }
            (_, None) => Fragment::Gone,
            (_, Some(p)) if p.bytes.len() + data.len() > MAX_MESSAGE => Fragment::Gone,
            (division, Some(p)) => {
                self.needs.message = p.bytes.len() + data.len();
                if division == 3 {
                    self.whole_message(s, id, p.flags, &[&p.bytes, data].concat());
                    Fragment::Gone
                } else {
                    Fragment::GoesOn(data.to_vec())
                }
            }
        };
        self.changes.push(Change::Control(id, h.sequence, fragment));
    }

    fn gives(&mut self, bytes: usize) {
        self.needs.records += 1;
        self.needs.bytes += bytes;
    }

    fn unit(&mut self, held: Option<usize>, part: FragmentationIndicator, data: usize) -> Option<usize> {
        let joined = held.map(|n| n + data).filter(|&n| n <= MAX_MFU);
        match part {
            FragmentationIndicator::Complete => {
                self.gives(data);
                return None;
            }
            FragmentationIndicator::Head => {
                self.needs.object = self.needs.object.max(data);
                return Some(data);
            }
            FragmentationIndicator::Middle => {}
            FragmentationIndicator::Last => joined.into_iter().for_each(|n| {
                self.gives(n);
                self.joined += 1;
            }),
        }
        self.needs.object = self.needs.object.max(joined.unwrap_or(0));
        joined.filter(|_| part == FragmentationIndicator::Middle)
    }

    fn media(&mut self, s: &Shadow, pass: bool, h: &Header, payload: &[u8]) {
        let id = u32::from(h.packet_id);
        let old = s.media.get(&id).copied();
        self.needs.media = usize::from(old.is_none());
        let follows = old.and_then(|o| o.last).is_none_or(|l| h.sequence == l.wrapping_add(1));
        let mut held = old.and_then(|o| o.held).filter(|_| follows);
        if let Some(ph) = mpu::parse_header(payload) {
            if h.scramble_info {
                if pass {
                    self.gives(payload.len() - 8);
                }
            } else if let Some((_, units)) = mpu::parse(payload) {
                for u in units {
                    held = self.unit(held, ph.fragmentation, u.data.len());
                }
            }
        }
        self.changes.push(Change::Media(id, Line { last: Some(h.sequence), held }));
    }
}

impl Shadow {
    pub fn look(&self, kind: u8, data: &[u8], pass: bool) -> Outcome {
        let mut o = Outcome::default();
        let datagram = match kind {
            1 => ipv4(data),
            2 => ipv6(data),
            3 => compressed(data),
            0xFE => {
                isdb_tlv::si::sections(data).iter().for_each(|x| o.section(self, &x.bytes));
                return o;
            }
            _ => return o,
        };
        let Ok(d) = datagram else { return o };
        if d.flow.is_some_and(|f| f.dport == 123) {
            return o;
        }
        if let Some((h, payload)) = mmtp::parse(&d.payload) {
            match h.payload_type {
                PayloadType::Mpu => o.media(self, pass, &h, payload),
                PayloadType::Messages => o.message(self, &h, payload),
                _ => {}
            }
        }
        o
    }

    pub fn take(&mut self, changes: Vec<Change>) {
        self.taken += 1;
        for c in changes {
            match c {
                Change::Media(id, line) => _ = self.media.insert(id, line),
                Change::Control(id, sequence, f) => self.control.entry(id).or_default().take(sequence, f),
                Change::Section(key, version, b) => _ = self.kept.insert(key, (version, b)),
                Change::Mpt(id, b) => _ = self.mpts.insert(id, b),
                Change::Plt(b) => self.plt = Some(b),
                Change::Tot(b) => self.tot = Some(b),
            }
        }
    }

    /// The shadow of a session as its bytes stand, for which question 5 is answered yes.
    pub fn of(m: &Memory) -> Shadow {
        let (b, h) = (&m.state, Head::of(&m.state));
        let areas = Areas::of(h.limits);
        let mut s = Shadow { taken: h.counters[0], ..Shadow::default() };
        for x in layout::media(b, h.used[0]) {
            s.media.insert(x.id, Line { last: x.sequence, held: x.held.map(|o| o.length) });
        }
        for (i, x) in layout::controls(b, h.used[1]).enumerate() {
            let part = x.joined.map(|j| Part {
                flags: u8::from(j.long) << 1 | u8::from(j.aggregated),
                bytes: areas.message(m, i, j.length).to_vec(),
            });
            s.control.insert(x.id, Joining { last: x.sequence, part });
            if let Some(n) = x.mpt {
                s.mpts.insert(x.id, areas.mpt(m, i, n).to_vec());
            }
        }
        for (i, x) in layout::sections(b, h.used[2]).enumerate() {
            s.kept.insert(x.key, (x.version, areas.section(m, i, x.length).to_vec()));
        }
        s.plt = h.plt.map(|n| areas.plt(m, n).to_vec());
        s.tot = h.tot.map(|n| areas.tot(m, n).to_vec());
        s
    }
}

impl Joining {
    fn take(&mut self, sequence: u32, f: Fragment) {
        self.last = Some(sequence);
        match f {
            Fragment::Stays => {}
            Fragment::Gone => self.part = None,
            Fragment::Begins(p) => self.part = Some(p),
            Fragment::GoesOn(data) => self.part.iter_mut().for_each(|p| p.bytes.extend_from_slice(&data)),
        }
    }
}
