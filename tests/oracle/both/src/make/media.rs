//! MPU payloads: units whole and divided, timed and not, aggregated.
use super::{Maker, be};

/// Where the sender of a media id stands.
pub struct Sender {
    mpu: u32,
    open: bool,
}

impl Maker {
    pub fn sender(&mut self) -> Sender {
        Sender { mpu: self.r.pick(&[7, 0, u32::MAX - 1, u32::MAX]), open: false }
    }

    fn unit(&mut self, timed: bool, most: usize) -> Vec<u8> {
        let n = self.r.below(most + 1);
        let mut b = self.r.bytes(if timed { 14 } else { 4 } + n);
        match self.r.below(60) {
            0 => b.truncate(if timed { 13 } else { 3 }),
            1 => b.truncate(if timed { 14 } else { 4 }),
            2 => b.clear(),
            _ => {}
        }
        b
    }

    fn units(&mut self, timed: bool, aggregated: bool, most: usize) -> Vec<u8> {
        if !aggregated {
            return self.unit(timed, most);
        }
        let mut b = Vec::new();
        for _ in 0..self.r.pick(&[0, 1, 1, 1, 1, 2, 2, 2, 2, 3, 3, 4, 4]) {
            let u = self.unit(timed, most);
            b.extend(self.counted(2, &u));
        }
        if self.r.once_in(20) {
            b.push(0);
        }
        b
    }

    fn part_of(&mut self, s: &mut Sender) -> u8 {
        let part = match (self.r.once_in(16), s.open) {
            (true, _) => self.r.below(4) as u8,
            (_, true) => self.r.pick(&[2, 2, 3]),
            (_, false) => self.r.pick(&[0, 0, 1, 1]),
        };
        s.open = part == 1 || part == 2;
        part
    }

    /// The next payload of a sender, with units of at most so many data bytes.
    pub fn media_payload(&mut self, s: &mut Sender, most: usize) -> Vec<u8> {
        self.begin(12);
        if self.r.once_in(6) {
            s.mpu = s.mpu.wrapping_add(self.r.pick(&[1, 1, 1, 2, u32::MAX, 5]));
        }
        if self.r.once_in(60) {
            let n = self.r.below(9);
            return self.r.bytes(n);
        }
        let (part, timed, aggregated) = (self.part_of(s), !self.r.once_in(3), self.r.once_in(3));
        let kind = if self.r.once_in(14) { self.r.below(16) as u8 } else { 2 };
        let mut b = vec![kind << 4 | u8::from(timed) << 3 | part << 1 | u8::from(aggregated), self.r.byte()];
        b.extend(be(s.mpu.into(), 4));
        if self.r.once_in(60) {
            b.truncate(self.r.below(7));
        } else {
            b.extend(self.units(timed, aggregated, most));
        }
        let declared = match self.r.below(60) {
            0 => b.len() + 1,
            1 => b.len().saturating_sub(1),
            2 => self.r.below(b.len() + 1),
            _ => b.len(),
        };
        let mut p = be(declared as u64, 2);
        p.extend(b);
        if self.r.once_in(10) {
            p.extend(self.some());
        }
        p
    }
}
