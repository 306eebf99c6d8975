//! Locations and descriptors.
use super::{Maker, be};

const TAGS: [u16; 11] = [0x0001, 0x8026, 0x8004, 0x8005, 0x8011, 0x8019, 0x800D, 0xF001, 0x8012, 0x800A, 0x8018];
/// At the borders of the widths of a length.
const OTHER_TAGS: [u16; 13] =
    [0x0000, 0x0002, 0x0003, 0x3FFF, 0x4000, 0x6FFF, 0x7000, 0x7FFF, 0x8000, 0x8010, 0xEFFF, 0xF000, 0xFFFF];

fn width(tag: u16) -> usize {
    match tag {
        2 | 0x4000..=0x6FFF | 0xF000.. => 2,
        0x7000..=0x7FFF => 4,
        _ => 1,
    }
}

impl Maker {
    /// A location, of an unknown type now and then.
    pub fn location(&mut self) -> Vec<u8> {
        let kind = if self.r.once_in(60) { self.r.byte() } else { self.r.pick(&[0, 0, 0, 1, 2, 3, 4, 5]) };
        let mut b = vec![kind];
        match kind {
            0 => b.extend(self.media_id().to_be_bytes()),
            1 => {
                b.extend(self.word(8));
                b.extend(self.word(2));
                b.extend(self.media_id().to_be_bytes());
            }
            2 => {
                b.extend(self.r.bytes(34));
                b.extend(self.media_id().to_be_bytes());
            }
            3 => b.extend(self.word(6)),
            4 => b.extend(self.r.bytes(36)),
            5 => {
                let url = self.text();
                b.extend(self.counted(1, &url));
            }
            _ => b.extend(self.word(2)),
        }
        b
    }

    /// One of few media packet ids, so that ids and locations meet.
    pub fn media_id(&mut self) -> u16 {
        if self.r.once_in(50) { self.r.word() as u16 } else { 0xF100 + self.r.below(4) as u16 }
    }

    fn extended_timestamp(&mut self) -> Vec<u8> {
        let (kind, scaled) = (self.r.below(4) as u8, self.r.below(2) as u8);
        let mut b = vec![self.r.byte() & 0xF8 | kind << 1 | scaled];
        if scaled == 1 {
            b.extend(self.word(4));
        }
        if kind == 1 {
            b.extend(self.word(2));
        }
        for _ in 0..self.r.below(3) {
            let n = if self.r.once_in(60) { 30 } else { self.r.below(4) };
            b.extend(self.word(7));
            b.push(self.length(n) as u8);
            b.extend(self.r.bytes(n * if kind == 2 { 4 } else { 2 }));
        }
        b
    }

    fn entries(&mut self, size: usize) -> Vec<u8> {
        let n = self.r.below(4) * size + if self.r.once_in(5) { self.r.below(size) } else { 0 };
        self.r.bytes(n)
    }

    fn body(&mut self, tag: u16) -> Vec<u8> {
        match tag {
            0x0001 => self.entries(12),
            0x8026 => self.extended_timestamp(),
            0x8004 => [self.word(2), self.location()].concat(),
            0x8005 | 0x8011 => self.word(2),
            0x8019 => {
                let (provider, name) = (self.text(), self.text());
                [vec![self.r.byte()], self.counted(1, &provider), self.counted(1, &name)].concat()
            }
            0x800D => self.entries(3),
            0xF001 => {
                let (name, text) = (self.text(), self.text());
                [b"jpn".to_vec(), self.counted(1, &name), self.counted(2, &text)].concat()
            }
            0x8012 => self.entries(2),
            0x800A => self.r.bytes(12),
            0x8018 => self.text(),
            _ => self.some(),
        }
    }

    fn descriptor(&mut self) -> Vec<u8> {
        let tag = match self.r.below(20) {
            0 => self.r.word() as u16,
            1..4 => self.r.pick(&OTHER_TAGS),
            _ => self.r.pick(&TAGS),
        };
        let mut body = self.body(tag);
        match self.r.below(24) {
            0 => body.truncate(body.len().saturating_sub(1)),
            1 => body.push(self.r.byte()),
            2 => body.clear(),
            _ => {}
        }
        body.truncate(255);
        [be(tag.into(), 2), self.counted(width(tag), &body)].concat()
    }

    /// A loop of descriptors; one in twelve ends within a descriptor.
    pub fn descriptors(&mut self) -> Vec<u8> {
        let mut b = Vec::new();
        for _ in 0..self.r.pick(&[0, 0, 1, 1, 2, 3]) {
            b.extend(self.descriptor());
        }
        if self.r.once_in(12) {
            let n = self.r.below(b.len() + 1);
            b.truncate(n);
            b.push(0x80);
        }
        b
    }

    /// A loop of TLV-SI descriptors.
    pub fn tlv_descriptors(&mut self) -> Vec<u8> {
        let mut b = Vec::new();
        for _ in 0..self.r.below(3) {
            let tag = if self.r.once_in(8) { self.r.byte() } else { self.r.pick(&[0x40, 0x41, 0x43]) };
            let body = match tag {
                0x40 => self.text(),
                0x41 => self.entries(3),
                0x43 => {
                    let n = self.r.pick(&[3, 4, 4, 11]);
                    (0..n).map(|_| if self.r.once_in(8) { self.r.byte() } else { self.r.pick(&[0x01, 0x99, 0x17, 0x9A, 0x50]) }).collect()
                }
                _ => self.some(),
            };
            b.push(tag);
            b.extend(self.counted(1, &body));
        }
        if self.r.once_in(12) {
            b.push(0x41);
        }
        b
    }
}
