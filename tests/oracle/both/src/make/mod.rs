//! Feeds at random, by the grammar of the formats, so that most packets are read to their depth; some of them are then damaged.
pub mod descriptors;
pub mod feeds;
pub mod media;
pub mod messages;
pub mod packets;
pub mod sections;
pub mod tables;
pub mod writes;

use crate::random::Random;

/// Makes pieces of packets. Of some pieces one length, count or number of bytes is off by a little.
pub struct Maker {
    pub r: Random,
    /// How many more lengths are right before one is off.
    off_after: Option<usize>,
}

pub fn be(n: u64, width: usize) -> Vec<u8> {
    n.to_be_bytes()[8 - width..].to_vec()
}

impl Maker {
    pub fn new(seed: u64) -> Maker {
        Maker { r: Random::new(seed), off_after: None }
    }

    /// Begins a piece: once in `n` times one of its lengths will be off.
    pub fn begin(&mut self, n: usize) {
        self.off_after = self.r.once_in(n).then(|| self.r.below(10));
    }

    /// A length, right or off.
    pub fn length(&mut self, n: usize) -> usize {
        match self.off_after {
            Some(0) => {
                self.off_after = None;
                match self.r.below(5) {
                    0 => n + 1,
                    1 => n.saturating_sub(1),
                    2 => n + 4,
                    3 => 0,
                    _ => n + self.r.below(300),
                }
            }
            left => {
                self.off_after = left.map(|k| k - 1);
                n
            }
        }
    }

    /// Bytes behind their length.
    pub fn counted(&mut self, width: usize, b: &[u8]) -> Vec<u8> {
        let n = self.length(b.len());
        let mut all = be(n as u64, width);
        all.extend_from_slice(b);
        all
    }

    /// Bytes behind 4 bits of something and 12 of length.
    pub fn counted12(&mut self, high: u8, b: &[u8]) -> Vec<u8> {
        let n = self.length(b.len()) & 0xFFF;
        let mut all = be(u64::from(high) << 12 | n as u64, 2);
        all.extend_from_slice(b);
        all
    }

    pub fn word(&mut self, width: usize) -> Vec<u8> {
        be(self.r.word(), width)
    }

    /// Few bytes, none now and then, and once in a long while as many as fit a length of one byte.
    pub fn some(&mut self) -> Vec<u8> {
        let n = if self.r.once_in(200) { 255 } else { self.r.below(7) };
        self.r.bytes(n)
    }

    /// A text: letters, kanji, or what is no UTF-8.
    pub fn text(&mut self) -> Vec<u8> {
        const BROKEN: [&[u8]; 6] = [&[0xFF], &[0xE6, 0x98], &[0xC0, 0x80], &[0xED, 0xA0, 0x80], &[0xF4, 0x90, 0x80, 0x80], &[0x80]];
        let mut b = Vec::new();
        for _ in 0..self.r.below(5) {
            match self.r.below(6) {
                0 => b.extend(self.r.pick(&BROKEN)),
                1 => b.extend("星空".bytes()),
                2 => b.push(self.r.byte()),
                _ => b.extend(b"NHK"),
            }
        }
        b
    }

    /// Damages some bytes in one way.
    pub fn damage(&mut self, b: &mut Vec<u8>) {
        let at = self.r.below(b.len() + 1);
        match self.r.below(8) {
            0 => b.truncate(at),
            1 => drop(b.splice(at..at, self.r.bytes(3))),
            2 => drop(b.drain(at..(at + self.r.between(1, 3)).min(b.len()))),
            3 => b.extend(self.r.bytes(3)),
            _ if at == b.len() => {}
            4 => b[at] = self.r.byte(),
            5 => b[at] = self.r.pick(&[0, 255, 0x40, 0x7F, 0x80, 0xFE]),
            6 => b[at] = b[at].wrapping_add(1),
            _ => b[at] ^= 1 << self.r.below(8),
        }
    }
}
