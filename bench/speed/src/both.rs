//! Both sides on the same packets, compared: the records of every push, and what each side knows then.
use crate::feed::{Feed, Step};
use crate::library::Library;
use crate::reference::Reference;
use isdb_mmt::mpu::{AssetStats, Mfu};
use std::collections::BTreeMap;
use std::fmt::Debug;

/// What differs, where something does.
pub type Same = Result<(), String>;

pub fn same<T: PartialEq + Debug>(what: &str, library: T, rust: T) -> Same {
    if library == rust { Ok(()) } else { Err(format!("{what}\n  library: {library:?}\n  Rust: {rust:?}")) }
}

pub struct Both {
    pub library: Library,
    pub rust: Reference,
}

/// An object's record of 36 bytes.
fn row(m: &Mfu, start: usize) -> [u8; 36] {
    let flag = u8::from;
    let mut b = [0; 36];
    b[..2].copy_from_slice(&m.packet_id.to_be_bytes());
    b[2] = flag(m.rap) | flag(m.scrambled) << 1 | flag(m.header.is_some()) << 2 | flag(m.item_id.is_some()) << 3;
    b[4..8].copy_from_slice(&m.mpu_sequence_number.to_be_bytes());
    if let Some(h) = m.header {
        b[8..12].copy_from_slice(&h.movie_fragment_sequence_number.to_be_bytes());
        b[12..16].copy_from_slice(&h.sample_number.to_be_bytes());
        b[16..20].copy_from_slice(&h.offset.to_be_bytes());
        b[20..22].copy_from_slice(&[h.priority, h.dependency_counter]);
    }
    b[24..28].copy_from_slice(&m.item_id.unwrap_or(0).to_be_bytes());
    b[28..32].copy_from_slice(&(start as u32).to_be_bytes());
    b[32..].copy_from_slice(&(m.data.len() as u32).to_be_bytes());
    b
}

/// Counts of a media id and the range of its MPU numbers, as `isdb_media` says them.
fn media_numbers(s: &AssetStats) -> [u64; 12] {
    let (first, last) = s.mpu_range.unwrap_or_default();
    [
        s.packets,
        s.packets_lost,
        s.scrambled_packets,
        s.mfus,
        s.scrambled_mfus,
        s.mfus_dropped,
        s.mpus,
        s.mpu_sequence_jumps,
        s.malformed,
        s.mpu_range.is_some().into(),
        first.into(),
        last.into(),
    ]
}

/// All names from 0 on, each by asking for the next.
fn names(next: impl Fn(u32) -> Option<u64>) -> Vec<u32> {
    let mut found = Vec::new();
    while let Some(name) = next(found.last().map_or(0, |n| n + 1)) {
        found.push(name as u32);
    }
    found
}

impl Library {
    fn media_known(&self) -> Vec<(u32, Vec<u64>)> {
        let ids = names(|from| self.next_media(from).ok().map(|v| v[0]));
        ids.into_iter().map(|id| (id, self.media(id).map_or(vec![], |v| v[..12].to_vec()))).collect()
    }

    /// The byte at a place of a kept table.
    fn byte(&self, table: Result<[u64; 16], u8>, at: usize) -> Option<u8> {
        table.ok().map(|v| self.tables[v[0] as usize + at])
    }

    /// Keys and versions of the kept sections.
    fn sections_known(&self) -> Vec<(u32, Option<u8>)> {
        let keys = names(|from| self.next_key(from, u32::MAX).ok().map(|v| v[0]));
        keys.into_iter().map(|k| (k, self.byte(self.section(k), 5).map(|b| b >> 1 & 0x1F))).collect()
    }
}

type Keyed<'a, T> = &'a BTreeMap<(u8, u16, u8), T>;

fn versions<T>(of: Keyed<T>, version: impl Fn(&T) -> u8) -> Vec<(u32, Option<u8>)> {
    let key = |&(t, e, n): &(u8, u16, u8)| u32::from(t) << 24 | u32::from(e) << 8 | u32::from(n);
    of.iter().map(|(k, x)| (key(k), Some(version(x)))).collect()
}

impl Reference {
    fn media_known(&self) -> Vec<(u32, Vec<u64>)> {
        self.decoder.mpu_stats().map(|(id, s)| (id.into(), media_numbers(s).to_vec())).collect()
    }

    fn sections_known(&self) -> Vec<(u32, Option<u8>)> {
        let d = &self.decoder;
        let (eits, sdts) = (versions(&d.eits, |t| t.header.version), versions(&d.sdts, |t| t.header.version));
        let (bits, nits) = (versions(&d.bits, |t| t.header.version), versions(&d.nits, |t| t.header.version));
        let mut all = [eits, sdts, bits, nits, versions(&d.amts, |t| t.header.version)].concat();
        all.sort();
        all
    }
}

impl Both {
    pub fn open() -> Both {
        Both { library: Library::open(), rust: Reference::open() }
    }

    /// Pushes a packet into both; how many records it hands out.
    fn push(&mut self, step: &Step) -> Result<u64, String> {
        same("the code of a push", self.library.push(step), 0)?;
        self.rust.push(step);
        let (l, mfus) = (&self.library, &self.rust.mfus);
        let bytes: usize = mfus.iter().map(|m| m.data.len()).sum();
        same("records and bytes of a push", (l.v[0], l.v[1]), (mfus.len() as u64, bytes as u64))?;
        let mut start = 0;
        for (m, here) in mfus.iter().zip(l.rows.chunks(36)) {
            same("a record", here, &row(m, start))?;
            same("its data", &l.out[start..start + m.data.len()], &m.data)?;
            start += m.data.len();
        }
        Ok(l.v[0])
    }

    /// Pushes a feed into both; what it adds: records, tables, version changes.
    pub fn pass(&mut self, feed: &mut Feed) -> Result<[u64; 3], String> {
        let (before, mut records) = (self.rust.counters(), 0);
        for step in &feed.0 {
            records += self.push(step)?;
        }
        feed.advance();
        let after = self.rust.counters();
        Ok([records, after[4] - before[4], after[7] - before[7]])
    }

    /// What both know: counters, media ids, kept sections, MPTs and the PLT.
    pub fn same_known(&self) -> Same {
        let (l, r) = (&self.library, &self.rust);
        same("counters", l.counters().map(|v| v[..12].to_vec()), Ok(r.counters().to_vec()))?;
        same("media ids", l.media_known(), r.media_known())?;
        same("kept sections", l.sections_known(), r.sections_known())?;
        for (&id, mpt) in &r.decoder.mpts {
            same("the version of an MPT", l.byte(l.mpt(id.into()), 1), Some(mpt.version))?;
        }
        same("the version of the PLT", l.byte(l.plt(), 1), r.decoder.plt.as_ref().map(|p| p.version))
    }

    /// That nothing in the feeds was bad: every error counter is 0.
    pub fn all_good(&self) -> Same {
        let c = self.rust.counters();
        same("counters of errors", [c[1], c[2], c[5], c[6], c[8], c[9], c[10], c[11]], [0; 8])
    }
}
