//! Messages, and control payloads: undivided, divided over packets, aggregated.
use super::{Maker, be};
use std::collections::VecDeque;

/// The rest of a message that is being sent in parts, and whether its first part is still to come.
#[derive(Default)]
pub struct Rest {
    parts: VecDeque<Vec<u8>>,
    begins: bool,
}

impl Rest {
    /// Another message, in parts of a size, from its first part on.
    pub fn restart(&mut self, message: &[u8], size: usize) {
        *self = Rest { parts: message.chunks(size).map(<[u8]>::to_vec).collect(), begins: true };
    }
}

const OTHER_TABLES: [u8; 12] = [0, 0x10, 0x21, 0x81, 0x8A, 0x9C, 0x9E, 0xA2, 0x40, 0x41, 0xFE, 0xFF];

impl Maker {
    fn section_table(&mut self) -> Vec<u8> {
        if self.r.once_in(6) {
            return self.tot();
        }
        let id = self.r.pick(&[0x8B, 0x8B, 0x8C, 0x9B, 0x9D, 0x9D, 0x9F, 0x9F, 0xA0]);
        self.section(id)
    }

    fn other_table(&mut self) -> Vec<u8> {
        let id = if self.r.once_in(4) { self.r.byte() } else { self.r.pick(&OTHER_TABLES) };
        let body = self.some();
        [vec![id, self.r.byte()], self.counted(2, &body)].concat()
    }

    fn table(&mut self) -> Vec<u8> {
        match self.r.below(20) {
            0 => self.section_table(),
            1..3 => self.other_table(),
            3..8 => self.plt(),
            8 => vec![],
            _ => self.mpt(),
        }
    }

    fn pa_message(&mut self) -> Vec<u8> {
        let n = if self.r.once_in(100) { 255 } else { self.r.pick(&[0, 0, 0, 1, 2]) };
        let mut b = vec![self.length(n) as u8];
        b.extend(self.r.bytes(4 * n));
        for _ in 0..self.r.pick(&[0, 1, 1, 2, 3]) {
            b.extend(self.table());
        }
        match self.r.below(20) {
            0 => b.extend(self.some()),
            1 => b.extend([0; 8]),
            _ => {}
        }
        let head = [vec![0, 0, self.r.byte()], self.counted(4, &b)].concat();
        if self.r.once_in(40) { head[..self.r.below(head.len())].to_vec() } else { head }
    }

    fn m2_message(&mut self) -> Vec<u8> {
        let t = if self.r.once_in(12) { self.table() } else { self.section_table() };
        let id = 0x8000 | self.r.pick(&[0, 0, 1, 2, 3]);
        let mut b = [be(id, 2), vec![self.r.byte()], self.counted(2, &t)].concat();
        match self.r.below(20) {
            0 => b.extend(self.some()),
            1 => b.truncate(self.r.below(b.len())),
            _ => {}
        }
        b
    }

    fn message(&mut self) -> Vec<u8> {
        match self.r.below(20) {
            0 => self.some(),
            1 => [self.word(2), self.some()].concat(),
            2..11 => self.pa_message(),
            _ => self.m2_message(),
        }
    }

    /// A message, or several behind their lengths, and its two flags.
    fn whole(&mut self) -> (u8, Vec<u8>) {
        self.begin(6);
        let (long, aggregated) = (self.r.once_in(3), self.r.once_in(4));
        let flags = u8::from(long) << 1 | u8::from(aggregated);
        if !aggregated {
            return (flags, self.message());
        }
        let mut b = Vec::new();
        for _ in 0..self.r.pick(&[0, 1, 2, 2, 3]) {
            let m = self.message();
            b.extend(self.counted(if long { 4 } else { 2 }, &m));
        }
        if self.r.once_in(4) {
            b.extend(self.r.bytes(if long { 3 } else { 1 }));
        }
        (flags, b)
    }

    /// The next payload of a control id: the next part of what is being sent, or something new.
    pub fn control_payload(&mut self, rest: &mut Rest) -> Vec<u8> {
        if self.r.once_in(25) {
            let n = self.r.below(3);
            return self.r.bytes(n);
        }
        let reserved = self.r.byte() & 0x3C;
        if let Some(d) = rest.parts.pop_front() {
            let first = std::mem::take(&mut rest.begins);
            let part = match first {
                true => 1,
                false if self.r.once_in(25) => self.r.below(4) as u8,
                false => 2 + u8::from(rest.parts.is_empty()),
            };
            let flags = if first { 0 } else { self.r.byte() & 3 };
            return [vec![part << 6 | reserved | flags, self.r.byte()], d].concat();
        }
        let (flags, b) = self.whole();
        if !self.r.once_in(3) {
            let part = if self.r.once_in(40) { self.r.below(4) as u8 } else { 0 };
            return [vec![part << 6 | reserved | flags, self.r.byte()], b].concat();
        }
        let mut cuts: Vec<usize> = (0..self.r.between(1, 3)).map(|_| self.r.below(b.len() + 1)).collect();
        cuts.sort_unstable();
        let first = cuts[0];
        cuts.push(b.len());
        rest.parts = cuts.windows(2).map(|c| b[c[0]..c[1]].to_vec()).collect();
        [vec![0x40 | reserved | flags, self.r.byte()], b[..first].to_vec()].concat()
    }
}
