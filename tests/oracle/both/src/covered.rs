//! What a run has covered.
use crate::seen::Seen;
use crate::shadow::{Change, Needs};
use std::fmt;

pub const SORTS: [&str; 8] = ["MPT", "PLT", "EIT", "SDT", "BIT", "NIT", "AMT", "TOT"];

#[derive(Default)]
pub struct Covered {
    pub feeds: u64,
    pub packets: u64,
    pub accepted: u64,
    /// By number.
    pub refused: [u64; 11],
    pub records: u64,
    pub joined: u64,
    /// By sort, in the order of `SORTS`: tables that were kept.
    pub kept: [u64; 8],
    /// Tables of which every field was compared.
    pub walked: u64,
    /// Tables apart from a session, likewise.
    pub apart: u64,
    pub assets: u64,
    /// Sessions that someone else wrote to, and the packets that they then took.
    pub corrupted: u64,
    pub taken_corrupted: u64,
    pub looks: u64,
    /// Calls for many packets, by why they ended.
    pub calls: [u64; 5],
    pub openings: [u64; 5],
    /// The longest object, message and table that a packet held, joined or kept.
    pub longest: [usize; 3],
    /// The sums of the Rust's twelve counters and of the nine of a media id.
    pub counters: [u64; 12],
    pub counts: [u64; 9],
}

fn sum(into: &mut [u64], more: &[u64]) {
    into.iter_mut().zip(more).for_each(|(x, y)| *x += y);
}

impl Covered {
    /// What the Rust has at a feed's end.
    pub fn ends(&mut self, s: &Seen) {
        sum(&mut self.counters, &s.counters);
        s.media.iter().for_each(|m| sum(&mut self.counts, &m.counts));
    }

    pub fn needs(&mut self, n: &Needs) {
        let needs = [n.object, n.message, n.table];
        self.longest.iter_mut().zip(needs).for_each(|(x, y)| *x = y.max(*x));
    }

    pub fn takes(&mut self, changes: &[Change]) {
        for c in changes {
            let sort = match c {
                Change::Mpt(..) => 0,
                Change::Plt(_) => 1,
                Change::Tot(_) => 7,
                Change::Section(key, ..) => match key >> 24 {
                    0x9F | 0xA0 => 3,
                    0x9D => 4,
                    0x40 | 0x41 => 5,
                    0xFE => 6,
                    _ => 2,
                },
                _ => continue,
            };
            self.kept[sort] += 1;
        }
    }
}

impl fmt::Display for Covered {
    fn fmt(&self, f: &mut fmt::Formatter) -> fmt::Result {
        write!(f, "{} feeds, {} packets, {} accepted, refused", self.feeds, self.packets, self.accepted)?;
        (5..=10).try_for_each(|n| write!(f, " {n}:{}", self.refused[n]))?;
        write!(f, ", {} records, {} objects of more than one unit, kept", self.records, self.joined)?;
        SORTS.iter().zip(self.kept).try_for_each(|(name, n)| write!(f, " {name}:{n}"))?;
        write!(f, ", {} tables walked, {} apart, {} assets, {} looks", self.walked, self.apart, self.assets, self.looks)?;
        write!(f, ", {} corrupted sessions, which then took {} packets", self.corrupted, self.taken_corrupted)?;
        write!(f, ", calls for many packets by how they ended {:?}, openings refused", self.calls)?;
        (1..=4).try_for_each(|n| write!(f, " {n}:{}", self.openings[n]))?;
        let [object, message, table] = self.longest;
        write!(f, ", longest object {object} message {message} table {table}")?;
        write!(f, ", counters {:?}, of media {:?}", self.counters, self.counts)
    }
}
