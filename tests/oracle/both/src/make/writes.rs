//! What someone else writes to lent memory: fields of the state at their bounds, and bytes anywhere.
use super::{Maker, be};
use crate::feed::{Area, Step};
use crate::layout::{CONTROL, CONTROL_SIZE, COUNTERS, Limits, MEDIA, MEDIA_SIZE, SECTION, SECTION_SIZE};

const COUNTS: [u64; 7] = [0, 1, (1 << 53) - 1, 1 << 53, (1 << 53) + 1, 1 << 63, u64::MAX];

impl Maker {
    fn limit(&mut self, l: &Limits) -> (usize, Vec<u8>) {
        const MOST: [u64; 7] = [64, 32, 512, 1 << 24, 1 << 20, 65_539, u32::MAX as u64];
        let i = self.r.below(7);
        let now = l.words()[i];
        let value = self.r.pick(&[0, 1, now - 1, now + 1, now + 1, MOST[i], MOST[i] + 1, u64::MAX]);
        (8 * i, be(value, 8))
    }

    /// A length at the bounds of its area.
    fn bound(&mut self, area: u64) -> Vec<u8> {
        be(self.r.pick(&[0, 1, area - 1, area, area + 1, u32::MAX.into()]), 4)
    }

    fn a_flag(&mut self) -> Vec<u8> {
        vec![self.r.pick(&[0, 1, 2, 255])]
    }

    fn head(&mut self, l: &Limits) -> (usize, Vec<u8>) {
        match self.r.below(5) {
            0 => self.limit(l),
            1 => {
                let i = self.r.below(3);
                let most = l.words()[i];
                (57 + 4 * i, be(self.r.pick(&[0, 1, 2, most - 1, most, most + 1, u32::MAX.into()]), 4))
            }
            2 => (self.r.pick(&[56, 69, 74, 79]), self.a_flag()),
            3 => (self.r.pick(&[70, 75]), self.bound(l.table_area)),
            _ => {
                let count = self.r.pick(&COUNTS);
                let count = if self.r.once_in(3) { l.packets - self.r.below(2) as u64 } else { count };
                (COUNTERS + 8 * self.r.below(12), be(count, 8))
            }
        }
    }

    fn media_place(&mut self, l: &Limits) -> (usize, Vec<u8>) {
        let (at, b) = match self.r.below(5) {
            0 => (0, be(self.media_id().into(), 4)),
            1 => (self.r.pick(&[4, 9, 18, 23, 24, 39]), self.a_flag()),
            2 => (44, self.bound(l.mfu_area)),
            3 => (self.r.below(48), self.word(1)),
            _ => (48 + 8 * self.r.below(9), be(self.r.pick(&COUNTS), 8)),
        };
        (MEDIA + MEDIA_SIZE * self.r.below(4) + at, b)
    }

    fn control_place(&mut self, l: &Limits) -> (usize, Vec<u8>) {
        let (at, b) = match self.r.below(6) {
            0 | 1 => (0, be(self.r.pick(&[0, 0x8001, 0xF100, 0x1_0000]), 4)),
            2 => (self.r.pick(&[4, 9, 10, 11, 16]), self.a_flag()),
            3 => (12, self.bound(l.message_area)),
            _ => (17, self.bound(l.table_area)),
        };
        (CONTROL + CONTROL_SIZE * self.r.below(3) + at, b)
    }

    fn section_place(&mut self, l: &Limits) -> (usize, Vec<u8>) {
        let (at, b) = match self.r.below(4) {
            0 => (0, be(self.r.pick(&[0x8B01_9100, 0x9D01_9100, 0x4001_9100, 0xFE01_9200, 0x5501_9100]), 4)),
            1 => (self.r.below(4), self.word(1)),
            2 => (4, self.word(1)),
            _ => (5, self.bound(l.table_area)),
        };
        (SECTION + SECTION_SIZE * self.r.below(4) + at, b)
    }

    fn into_tables(&mut self, l: &Limits) -> Step {
        let places = [0, 1, 2, l.sections, l.sections + 1, l.sections + l.control_ids, l.sections + l.control_ids + 1];
        let at = self.r.pick(&places) * l.table_area + self.r.below(l.table_area.min(24) as usize) as u64;
        Step::Write(Area::Tables, at as usize, self.word(1))
    }

    /// Somewhere among the steps a place gets the name that another of its sort has.
    pub fn name_twice(&mut self, steps: &mut Vec<Step>) {
        let (start, size) = self.r.pick(&[(MEDIA, MEDIA_SIZE), (CONTROL, CONTROL_SIZE), (SECTION, SECTION_SIZE)]);
        let (from, to) = self.r.pick(&[(0, 1), (1, 0), (0, 2), (2, 1)]);
        let at = self.r.below(steps.len());
        steps.splice(at..at, [Step::Copy(start + from * size, start + to * size, 4), Step::Look]);
    }

    /// A write into a session with these limits.
    pub fn write(&mut self, l: &Limits) -> Step {
        let (at, b) = match self.r.below(17) {
            0..3 => self.head(l),
            3..6 => self.media_place(l),
            6..9 => self.control_place(l),
            9..11 => self.section_place(l),
            11 => (self.r.below(8600), self.word(1)),
            12 => return Step::Write(Area::Others, self.r.below(256), be(self.r.pick(&COUNTS), 8)),
            13 => return Step::Write(Area::Objects, self.r.below(64), self.word(1)),
            14 => return Step::Write(Area::Messages, self.r.below(64), self.word(2)),
            15 => {
                let area = self.r.pick(&[Area::State, Area::Objects, Area::Messages, Area::Tables]);
                return Step::Shorten(area, self.r.pick(&[1, 1, 16, 17]));
            }
            _ => return self.into_tables(l),
        };
        Step::Write(Area::State, at, b)
    }
}
