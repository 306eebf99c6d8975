//! MPT and PLT, and the bodies of sections.
use super::{Maker, be};

impl Maker {
    fn asset(&mut self, small: bool) -> Vec<u8> {
        let id = if small { vec![] } else { self.some() };
        let mut b = self.word(5);
        b.extend(self.counted(1, &id));
        b.extend(self.r.pick(&[b"hev1", b"mp4a", b"stpp", b"aapp"]));
        b.push(self.r.byte());
        let n = match self.r.below(400) {
            0 if !small => 255,
            k => k % 4,
        };
        b.push(self.length(n) as u8);
        for _ in 0..n {
            b.extend(if n == 255 { vec![0, 0, 0] } else { self.location() });
        }
        let loop_ = if small { vec![] } else { self.descriptors() };
        b.extend(self.counted(2, &loop_));
        b
    }

    /// A table of a PA message: id, version, length, body, and bytes behind it now and then.
    fn plain(&mut self, id: u8, body: &[u8]) -> Vec<u8> {
        let mut b = vec![id, self.version()];
        b.extend(self.counted(2, body));
        if self.r.once_in(30) {
            b.truncate(self.r.below(b.len()));
        }
        b
    }

    /// Few versions, so that they come again.
    pub fn version(&mut self) -> u8 {
        if self.r.once_in(30) { self.r.byte() } else { self.r.pick(&[0, 1, 1, 31]) }
    }

    pub fn mpt(&mut self) -> Vec<u8> {
        self.begin(4);
        let (package, own) = (self.some(), self.descriptors());
        let mut b = vec![self.r.byte()];
        b.extend(self.counted(1, &package));
        b.extend(self.counted(2, &own));
        let n = if self.r.once_in(150) { 255 } else { self.r.below(4) };
        b.push(self.length(n) as u8);
        for _ in 0..n {
            b.extend(self.asset(n == 255));
        }
        if self.r.once_in(10) {
            b.extend(self.some());
        }
        let id = self.r.pick(&[0x11, 0x20, 0x20, 0x1F, 0x15]);
        self.plain(id, &b)
    }

    fn delivery(&mut self) -> Vec<u8> {
        let kind = if self.r.once_in(20) { self.r.byte() } else { self.r.pick(&[1, 2, 5]) };
        let mut b = self.word(4);
        b.push(kind);
        match kind {
            1 => b.extend(self.r.bytes(10)),
            2 => b.extend(self.r.bytes(34)),
            _ => {
                let url = self.text();
                b.extend(self.counted(1, &url));
            }
        }
        let loop_ = self.some();
        b.extend(self.counted(2, &loop_));
        b
    }

    pub fn plt(&mut self) -> Vec<u8> {
        self.begin(4);
        let n = if self.r.once_in(150) { 255 } else { self.r.below(4) };
        let mut b = vec![self.length(n) as u8];
        for _ in 0..n {
            let id = self.some();
            b.extend(self.counted(1, if n == 255 { &[] } else { &id }));
            b.extend(self.location());
        }
        if !self.r.once_in(6) {
            let n = self.r.pick(&[0, 0, 1, 2]);
            b.push(self.length(n) as u8);
            for _ in 0..n {
                b.extend(self.delivery());
            }
            if self.r.once_in(10) {
                b.extend(self.some());
            }
        }
        self.plain(0x80, &b)
    }

    /// As many descriptors as a length of 12 bits allows.
    fn loop12(&mut self) -> Vec<u8> {
        let (high, b) = (self.r.below(16) as u8, self.descriptors());
        self.counted12(high, &b)
    }

    fn eit(&mut self) -> Vec<u8> {
        let mut b = self.word(6);
        for _ in 0..self.r.below(4) {
            b.extend(self.r.bytes(10));
            b.extend(self.loop12());
        }
        b
    }

    fn sdt(&mut self) -> Vec<u8> {
        let mut b = self.word(3);
        for _ in 0..self.r.below(4) {
            b.extend(self.word(3));
            b.extend(self.loop12());
        }
        if self.r.once_in(8) {
            b.truncate(self.r.below(4));
        }
        b
    }

    fn bit(&mut self) -> Vec<u8> {
        let mut b = self.loop12();
        for _ in 0..self.r.below(3) {
            b.push(self.r.byte());
            b.extend(self.loop12());
        }
        b
    }

    fn nit(&mut self) -> Vec<u8> {
        let own = self.tlv_descriptors();
        let mut b = self.counted12(15, &own);
        let mut streams = Vec::new();
        for _ in 0..self.r.below(4) {
            streams.extend(self.word(4));
            let loop_ = self.tlv_descriptors();
            streams.extend(self.counted12(15, &loop_));
        }
        b.extend(self.counted12(15, &streams));
        b
    }

    fn amt(&mut self) -> Vec<u8> {
        let n = match self.r.below(300) {
            0 => 250,
            1 => 1023,
            k => k % 4,
        };
        let low = self.r.below(64);
        let mut b = be((self.length(n) << 6 | low) as u64 & 0xFFFF, 2);
        for _ in 0..n.min(250) {
            let (six, more) = (n < 100 && self.r.once_in(3), if n < 100 && self.r.once_in(6) { 3 } else { 0 });
            let size = if six { 34 } else { 10 } + more;
            b.extend(self.word(2));
            let high = u64::from(six) << 15 | (self.r.word() & 0x1F) << 10;
            b.extend(be(high | self.length(size) as u64 & 0x3FF, 2));
            b.extend(self.r.bytes(size));
        }
        b
    }

    /// The body of a section with this id, as often as not with bytes behind it where the table takes them.
    pub fn section_body(&mut self, id: u8) -> Vec<u8> {
        let mut b = match id {
            0x9D => self.bit(),
            0x9F | 0xA0 => self.sdt(),
            0x40 | 0x41 => self.nit(),
            0xFE => self.amt(),
            _ => self.eit(),
        };
        if matches!(id, 0x40 | 0x41 | 0xFE) && self.r.once_in(8) {
            b.extend(self.some());
        }
        b
    }
}
