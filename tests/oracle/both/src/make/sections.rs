//! Sections with their CRC, and what a control packet holds.
use super::{Maker, be};
use isdb_ts::crc::crc32;

impl Maker {
    /// Few keys, so that they come again; the table area of a small session takes short ones alone.
    pub fn section(&mut self, id: u8) -> Vec<u8> {
        self.begin(5);
        let mut body = self.section_body(id);
        if self.r.once_in(10) {
            self.damage(&mut body);
        }
        if self.r.once_in(400) {
            body.extend(self.r.bytes(4086 - body.len().min(4086)));
        }
        let extension = if self.r.once_in(30) { self.r.word() as u16 } else { self.r.pick(&[0x0191, 0x0192]) };
        let mut b = vec![id, 0, 0];
        b.extend(extension.to_be_bytes());
        b.push(0xC0 | self.version() << 1 & 0x3E | self.r.below(2) as u8);
        b.extend([self.r.pick(&[0, 0, 0, 1, 255]), self.r.byte()]);
        b.extend(body);
        let high = if self.r.once_in(60) { 0x30 } else { 0xB0 };
        self.finished(b, high)
    }

    /// A TOT, whose descriptors may reach into its CRC.
    pub fn tot(&mut self) -> Vec<u8> {
        self.begin(8);
        let mut b = vec![0xA1, 0, 0];
        b.extend(self.word(5));
        let loop_ = self.descriptors();
        let further = if self.r.once_in(5) { self.r.between(1, 5) } else { 0 };
        b.extend(be((0xF000 | (self.length(loop_.len()) + further) & 0xFFF) as u64, 2));
        b.extend(&loop_);
        if self.r.once_in(15) {
            b.truncate(self.r.between(7, 10));
        }
        self.finished(b, 0x70)
    }

    /// With length and CRC; one in some is wrong in its length or CRC, is cut, or has bytes behind it.
    fn finished(&mut self, mut b: Vec<u8>, high: u8) -> Vec<u8> {
        b.truncate(4094);
        let mut n = b.len() + 1;
        let wrong = self.r.below(40);
        if wrong < 2 {
            n = self.length(n) + wrong;
        }
        b[1..3].copy_from_slice(&be(u64::from(high) << 8 | n as u64 & 0xFFF, 2));
        b.extend(crc32(&b).to_be_bytes());
        match wrong {
            2 | 3 => self.damage(&mut b),
            4 => b.truncate(self.r.below(b.len())),
            5 => b.truncate(self.r.pick(&[0, 1, 2, 3, 6, 7, 8, 11])),
            6 | 7 => b.extend(self.some()),
            _ => {}
        }
        b
    }

    /// What is no section and looks like one.
    fn false_start(&mut self) -> Vec<u8> {
        let n = self.r.below(40);
        (0..n).map(|_| self.r.pick(&[0x40, 0x41, 0xFE, 0x80, 0xB0, 0x00, 0x09, 0x0C])).collect()
    }

    fn control_section(&mut self) -> Vec<u8> {
        let id = self.r.pick(&[0x40, 0x40, 0x41, 0xFE, 0xFE]);
        let mut b = self.section(id);
        // a good one inside: passed over where the outer one is good, found where it is not
        if self.r.once_in(12) && b.len() > 12 {
            let inner = self.section(0xFE);
            b.truncate(b.len() - 4);
            b.extend(inner);
            b = self.finished(b, 0xB0);
        }
        b
    }

    /// The data of a packet of kind FEh.
    pub fn control_data(&mut self) -> Vec<u8> {
        let mut b = if self.r.once_in(3) { self.false_start() } else { Vec::new() };
        for _ in 0..self.r.pick(&[1, 1, 1, 2, 3]) {
            if self.r.once_in(20) {
                let id = self.r.byte();
                b.extend(self.section(id));
            } else {
                b.extend(self.control_section());
            }
            if self.r.once_in(5) {
                b.extend(self.false_start());
            }
        }
        b
    }
}
