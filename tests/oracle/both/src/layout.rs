//! A session's bytes, read as docs/REFERENCE.md lays them out ("The state's bytes"). Nothing here calls the library.
use crate::calls::Memory;

pub const STATE_BYTES: usize = 13_144;
pub const MOST: [u64; 3] = [64, 32, 512];
pub const COUNTERS: usize = 88;
pub const MEDIA: usize = 184;
pub const MEDIA_SIZE: usize = 120;
pub const CONTROL: usize = 7_864;
pub const CONTROL_SIZE: usize = 21;
pub const SECTION: usize = 8_536;
pub const SECTION_SIZE: usize = 9;

/// Limits in the order of an opening.
#[derive(Clone, Copy, Debug, PartialEq)]
pub struct Limits {
    pub media_ids: u64,
    pub control_ids: u64,
    pub sections: u64,
    pub mfu_area: u64,
    pub message_area: u64,
    pub table_area: u64,
    pub packets: u64,
    pub pass_scrambled: bool,
}

impl Limits {
    pub fn words(&self) -> [u64; 8] {
        [
            self.media_ids, self.control_ids, self.sections, self.mfu_area, self.message_area, self.table_area, self.packets,
            self.pass_scrambled.into(),
        ]
    }

    /// The lengths of objects, messages and tables; none where one is no number of 64 bits.
    pub fn areas(&self) -> Option<[u64; 3]> {
        let tables = self.sections.checked_add(self.control_ids)?.checked_add(2)?.checked_mul(self.table_area)?;
        Some([self.media_ids.checked_mul(self.mfu_area)?, self.control_ids.checked_mul(self.message_area)?, tables])
    }
}

pub fn number(b: &[u8], at: usize, width: usize) -> u64 {
    b[at..at + width].iter().fold(0, |n, &x| n << 8 | u64::from(x))
}

/// A number of 4 bytes where the flag in front of it is not 0.
fn maybe(b: &[u8], at: usize) -> Option<u32> {
    (b[at] != 0).then(|| number(b, at + 1, 4) as u32)
}

#[derive(Debug, PartialEq)]
pub struct Held {
    pub mpu: u32,
    pub rap: bool,
    pub header: Option<[u32; 5]>,
    pub item: Option<u32>,
    pub length: usize,
}

pub struct Media {
    pub id: u32,
    pub sequence: Option<u32>,
    /// The first and the last MPU number.
    pub range: Option<(u32, u32)>,
    pub held: Option<Held>,
    pub counts: [u64; 9],
}

pub struct Joined {
    pub long: bool,
    pub aggregated: bool,
    pub length: usize,
}

pub struct Control {
    pub id: u32,
    pub sequence: Option<u32>,
    pub joined: Option<Joined>,
    pub mpt: Option<usize>,
}

pub struct Section {
    pub key: u32,
    pub version: u8,
    pub length: usize,
}

/// Everything in front of the places.
pub struct Head {
    pub limits: Limits,
    pub used: [usize; 3],
    pub plt: Option<usize>,
    pub tot: Option<usize>,
    pub time: Option<u64>,
    pub counters: [u64; 12],
}

impl Head {
    pub fn of(b: &[u8]) -> Head {
        let n = |i: usize| number(b, 8 * i, 8);
        Head {
            limits: Limits {
                media_ids: n(0), control_ids: n(1), sections: n(2), mfu_area: n(3), message_area: n(4), table_area: n(5), packets: n(6),
                pass_scrambled: b[56] != 0,
            },
            used: [57, 61, 65].map(|at| number(b, at, 4) as usize),
            plt: maybe(b, 69).map(|n| n as usize),
            tot: maybe(b, 74).map(|n| n as usize),
            time: (b[79] != 0).then(|| number(b, 80, 8)),
            counters: std::array::from_fn(|i| number(b, COUNTERS + 8 * i, 8)),
        }
    }
}

fn held(p: &[u8]) -> Held {
    let header = || [number(p, 25, 4), number(p, 29, 4), number(p, 33, 4), p[37].into(), p[38].into()].map(|x| x as u32);
    Held {
        mpu: number(p, 19, 4) as u32,
        rap: p[23] != 0,
        header: (p[24] != 0).then(header),
        item: maybe(p, 39),
        length: number(p, 44, 4) as usize,
    }
}

/// The media places in use.
pub fn media(b: &[u8], used: usize) -> impl Iterator<Item = Media> {
    b[MEDIA..CONTROL].chunks(MEDIA_SIZE).take(used).map(|p| Media {
        id: number(p, 0, 4) as u32,
        sequence: maybe(p, 4),
        range: (p[9] != 0).then(|| (number(p, 14, 4) as u32, number(p, 10, 4) as u32)),
        held: (p[18] != 0).then(|| held(p)),
        counts: std::array::from_fn(|i| number(p, 48 + 8 * i, 8)),
    })
}

/// The control places in use.
pub fn controls(b: &[u8], used: usize) -> impl Iterator<Item = Control> {
    b[CONTROL..SECTION].chunks(CONTROL_SIZE).take(used).map(|p| Control {
        id: number(p, 0, 4) as u32,
        sequence: maybe(p, 4),
        joined: (p[9] != 0).then(|| Joined { long: p[10] != 0, aggregated: p[11] != 0, length: number(p, 12, 4) as usize }),
        mpt: maybe(p, 16).map(|n| n as usize),
    })
}

/// The section places in use.
pub fn sections(b: &[u8], used: usize) -> impl Iterator<Item = Section> {
    b[SECTION..STATE_BYTES].chunks(SECTION_SIZE).take(used).map(|p| Section {
        key: number(p, 0, 4) as u32,
        version: p[4],
        length: number(p, 5, 4) as usize,
    })
}

/// Where the kept tables lie: sections by place, MPTs by control place, then the PLT and the TOT.
pub struct Areas {
    limits: Limits,
}

impl Areas {
    pub fn of(limits: Limits) -> Areas {
        Areas { limits }
    }

    fn table<'a>(&self, m: &'a Memory, index: u64, length: usize) -> &'a [u8] {
        let at = (index * self.limits.table_area) as usize;
        &m.tables[at..at + length]
    }

    pub fn section<'a>(&self, m: &'a Memory, place: usize, length: usize) -> &'a [u8] {
        self.table(m, place as u64, length)
    }

    pub fn mpt<'a>(&self, m: &'a Memory, place: usize, length: usize) -> &'a [u8] {
        self.table(m, self.limits.sections + place as u64, length)
    }

    pub fn plt<'a>(&self, m: &'a Memory, length: usize) -> &'a [u8] {
        self.table(m, self.limits.sections + self.limits.control_ids, length)
    }

    pub fn tot<'a>(&self, m: &'a Memory, length: usize) -> &'a [u8] {
        self.table(m, self.limits.sections + self.limits.control_ids + 1, length)
    }

    pub fn object<'a>(&self, m: &'a Memory, place: usize, length: usize) -> &'a [u8] {
        let at = place * self.limits.mfu_area as usize;
        &m.objects[at..at + length]
    }

    pub fn message<'a>(&self, m: &'a Memory, place: usize, length: usize) -> &'a [u8] {
        let at = place * self.limits.message_area as usize;
        &m.messages[at..at + length]
    }
}
