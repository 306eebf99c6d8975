//! One feed on both sides, compared as it goes.
use crate::calls::Memory;
use crate::covered::Covered;
use crate::differ::{differ, same};
use crate::feed::{Area, Feed, Step};
use crate::layout::{Head, STATE_BYTES};
use crate::random::Random;
use crate::shadow::{Needs, Shadow};
use crate::{all, questions, seen};
use isdb_mmt::decoder::Decoder;
use isdb_mmt::desc::split_errors;
use isdb_mmt::mpu::Mfu;
use isdb_tlv::tlv::{Packet, PacketType};

/// What the outputs hold before a push; every byte that no record takes must hold it after.
pub struct Canvas(pub Vec<u8>);

impl Canvas {
    pub fn new() -> Canvas {
        Canvas::of_size(1 << 20)
    }

    pub fn of_size(n: usize) -> Canvas {
        Canvas(Random::new(1).bytes(n))
    }
}

pub struct Run<'a> {
    pub feed: &'a Feed,
    pub canvas: &'a Canvas,
    pub covered: &'a mut Covered,
    pub memory: Memory,
    /// The memory as it was lent, where it is small.
    pub lent: Option<Memory>,
    rows: Vec<u8>,
    out: Vec<u8>,
    pub shadow: Shadow,
    pub rust: Decoder,
    /// Broken loops that this decoder met.
    pub splits: u64,
    mfus: Vec<Mfu>,
    /// Someone else wrote to the session: it is no longer what the Rust has.
    pub written: bool,
}

pub fn lent(feed: &Feed) -> Memory {
    let mut r = Random::new(feed.fill.unwrap_or(0));
    let mut buffer = |n: usize| if feed.fill.is_some() { r.bytes(n + feed.slack) } else { vec![0; n + feed.slack] };
    let [objects, messages, tables] = feed.limits.areas().unwrap().map(|n| n as usize);
    Memory {
        state: buffer(STATE_BYTES),
        objects: buffer(objects),
        messages: buffer(messages),
        tables: buffer(tables),
        others: Box::new([0x5A; 256]),
    }
}

/// An MFU's record of 36 bytes.
fn row(m: &Mfu, start: usize) -> [u8; 36] {
    let flag = u8::from;
    let mut b = [0; 36];
    b[..2].copy_from_slice(&m.packet_id.to_be_bytes());
    b[2] = flag(m.rap) | flag(m.scrambled) << 1 | flag(m.header.is_some()) << 2 | flag(m.item_id.is_some()) << 3;
    b[4..8].copy_from_slice(&m.mpu_sequence_number.to_be_bytes());
    if let Some(h) = m.header {
        b[8..12].copy_from_slice(&h.movie_fragment_sequence_number.to_be_bytes());
        b[12..16].copy_from_slice(&h.sample_number.to_be_bytes());
        b[16..20].copy_from_slice(&h.offset.to_be_bytes());
        b[20..22].copy_from_slice(&[h.priority, h.dependency_counter]);
    }
    b[24..28].copy_from_slice(&m.item_id.unwrap_or(0).to_be_bytes());
    b[28..32].copy_from_slice(&(start as u32).to_be_bytes());
    b[32..].copy_from_slice(&(m.data.len() as u32).to_be_bytes());
    b
}

/// The bytes of an area; the counts have none.
fn area(m: &mut Memory, area: Area) -> Option<&mut Vec<u8>> {
    match area {
        Area::Others => None,
        Area::State => Some(&mut m.state),
        Area::Objects => Some(&mut m.objects),
        Area::Messages => Some(&mut m.messages),
        Area::Tables => Some(&mut m.tables),
    }
}

/// What someone else writes.
pub fn write(m: &mut Memory, step: &Step) {
    match step {
        Step::Write(Area::Others, at, b) => m.others[*at] = u64::from_be_bytes(b[..].try_into().unwrap()),
        Step::Write(of, at, b) => {
            let of = area(m, *of).into_iter().flatten().skip(*at);
            of.zip(b).for_each(|(x, &y)| *x = y);
        }
        // a state that was lent shorter may not have these bytes
        Step::Copy(from, to, n) if from.max(to) + n <= m.state.len() => m.state.copy_within(*from..from + n, *to),
        Step::Shorten(of, n) => area(m, *of).into_iter().for_each(|b| b.truncate(b.len().saturating_sub(*n))),
        _ => {}
    }
}

impl<'a> Run<'a> {
    /// Opens a session for a feed.
    pub fn open(feed: &'a Feed, canvas: &'a Canvas, covered: &'a mut Covered) -> Run<'a> {
        let mut run = Run {
            feed, canvas, covered,
            memory: lent(feed),
            lent: feed.fill.map(|_| lent(feed)),
            rows: canvas.0[..feed.rows].to_vec(),
            out: canvas.0[..feed.out].to_vec(),
            shadow: Shadow::default(),
            rust: Decoder::new(),
            splits: 0,
            mfus: Vec::new(),
            written: false,
        };
        if let Some(fill) = feed.fill {
            run.openings(&mut Random::new(fill));
        }
        run.opening(&feed.limits);
        run.rust.set_pass_scrambled(feed.limits.pass_scrambled);
        run
    }

    pub fn step(&mut self, step: &Step) {
        match step {
            Step::Packet(kind, data) if self.written => self.packet_after_writes(*kind, data),
            Step::Packet(kind, data) => self.packet(*kind, data),
            Step::Look => self.look(),
            _ => self.write(step),
        }
    }

    /// What a look has held against both sides: the bytes held, objects dropped, bytes joined, messages oversize, tables.
    pub fn outcome(&self) -> [u64; 5] {
        let held = self.shadow.media.values().filter_map(|l| l.held).sum::<usize>();
        let joined = self.shadow.control.values().filter_map(|c| c.part.as_ref()).map(|p| p.bytes.len()).sum::<usize>();
        let dropped = self.rust.mpu_stats().map(|(_, s)| s.mfus_dropped).sum();
        let c = &self.rust.counters;
        [held as u64, dropped, joined as u64, c.message_errors.oversize, c.tables]
    }

    fn packet(&mut self, kind: u8, data: &[u8]) {
        let o = self.shadow.look(kind, data, self.feed.limits.pass_scrambled);
        let number = questions::packet(data, &o.needs, &self.shadow, &self.feed.limits, self.rows.len(), self.out.len());
        self.covered.packets += 1;
        if number != 0 {
            return self.turned_down(kind, data, number);
        }
        self.taken(kind, data, &o.needs);
        self.covered.joined += o.joined;
        self.covered.takes(&o.changes);
        self.covered.needs(&o.needs);
        self.shadow.take(o.changes);
    }

    /// A packet that the questions turn down: the number, and not a byte is changed.
    fn turned_down(&mut self, kind: u8, data: &[u8], number: u8) {
        let before = self.memory.clone();
        let told = self.memory.push(kind, data, &mut self.rows, &mut self.out);
        same(|| "a push, which the questions turn down".into(), &told, &Err(number));
        self.covered.refused[usize::from(number)] += 1;
        if self.memory != before {
            differ(format!("a push is turned down with {number} and writes to the session"));
        }
        self.untouched(0, 0);
    }

    /// Nothing is written behind so many bytes of the outputs; these are painted over.
    fn untouched(&mut self, rows: usize, out: usize) {
        let canvas = &self.canvas.0;
        if self.rows[rows..] != canvas[rows..self.rows.len()] || self.out[out..] != canvas[out..self.out.len()] {
            differ(format!("a push writes behind its {rows} bytes of records or its {out} bytes of data"));
        }
        self.rows[..rows].copy_from_slice(&canvas[..rows]);
        self.out[..out].copy_from_slice(&canvas[..out]);
    }

    fn taken(&mut self, kind: u8, data: &[u8], needs: &Needs) {
        let before = split_errors();
        self.mfus.clear();
        self.rust.push(&Packet { kind: PacketType::from_byte(kind), data: data.to_vec() }, &mut self.mfus);
        self.splits += split_errors() - before;
        let bytes = self.mfus.iter().map(|m| m.data.len()).sum();
        let told = self.memory.push(kind, data, &mut self.rows, &mut self.out);
        same(|| "a push: records and bytes".into(), &told, &Ok((self.mfus.len(), bytes)));
        same(|| "what a push hands out and what it was said to need".into(), &(self.mfus.len(), bytes), &(needs.records, needs.bytes));
        self.covered.accepted += 1;
        self.covered.records += self.mfus.len() as u64;
        let mut start = 0;
        for (i, m) in self.mfus.iter().enumerate() {
            same(|| format!("record {i}"), &self.rows[36 * i..36 * i + 36], &row(m, start)[..]);
            same(|| format!("the data of record {i}"), &self.out[start..start + m.data.len()], &m.data[..]);
            start += m.data.len();
        }
        self.untouched(36 * self.mfus.len(), bytes);
    }

    /// From here on the session is not what the calls left.
    fn write(&mut self, step: &Step) {
        write(&mut self.memory, step);
        self.covered.corrupted += u64::from(!self.written);
        self.written = true;
    }

    /// The number as the questions say it of the session's bytes; what it hands out is no longer the Rust's.
    fn packet_after_writes(&mut self, kind: u8, data: &[u8]) {
        self.covered.packets += 1;
        if !questions::holds_session(&self.memory) {
            return self.turned_down(kind, data, 5);
        }
        let (limits, shadow) = (Head::of(&self.memory.state).limits, Shadow::of(&self.memory));
        let needs = shadow.look(kind, data, limits.pass_scrambled).needs;
        match questions::packet(data, &needs, &shadow, &limits, self.rows.len(), self.out.len()) {
            0 => {
                let told = self.memory.push(kind, data, &mut self.rows, &mut self.out);
                same(|| "a push into a session that was written to".into(), &told, &Ok((needs.records, needs.bytes)));
                self.covered.accepted += 1;
                self.covered.taken_corrupted += 1;
                self.untouched(36 * needs.records, needs.bytes);
            }
            number => self.turned_down(kind, data, number),
        }
    }

    fn end(&mut self) {
        self.covered.feeds += 1;
        if !self.written {
            self.covered.ends(&seen::of_rust(&self.rust, self.splits).0);
        }
    }
}

/// Runs a feed; `each` also looks after every step.
pub fn run(feed: &Feed, canvas: &Canvas, covered: &mut Covered, each: bool) {
    let mut run = Run::open(feed, canvas, covered);
    for step in &feed.steps {
        run.step(step);
        if each && *step != Step::Look {
            run.look();
        }
    }
    run.end();
    all::compare(feed, canvas, covered);
}
