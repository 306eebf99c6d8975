//! From an MMTP payload to a TLV packet's kind and data.
use super::{Maker, be};

/// What an MMTP packet says beside its payload.
pub struct Head {
    pub kind: u8,
    pub packet_id: u16,
    pub sequence: u32,
    /// Once in so many packets there is a header extension.
    pub extended: usize,
}

impl Maker {
    /// Entries of a multi-type extension; the first of type 1 has the scramble bits, where the byte is there.
    fn multi_extension(&mut self) -> Vec<u8> {
        let mut b = Vec::new();
        for _ in 0..self.r.pick(&[0, 1, 1, 1, 2, 3]) {
            let last = u64::from(!self.r.once_in(3)) << 15;
            let kind = if self.r.once_in(4) { self.r.word() & 0x7FFF } else { 1 };
            b.extend(be(last | kind, 2));
            let body = match self.r.below(8) {
                0 => vec![],
                1 => self.some(),
                _ => vec![self.r.pick(&[0x00, 0x08, 0x10, 0x18, 0xE7, 0xFF])],
            };
            let n = if self.r.once_in(12) { self.r.below(4) } else { body.len() };
            b.extend(be(n as u64, 2));
            b.extend(body);
        }
        if self.r.once_in(12) {
            b.truncate(self.r.below(b.len() + 1));
        }
        b
    }

    fn extension(&mut self) -> Vec<u8> {
        let b = if self.r.once_in(12) { self.some() } else { self.multi_extension() };
        let kind = if self.r.once_in(10) { self.r.below(3) as u64 } else { 0 };
        let n = if self.r.once_in(25) { b.len() + self.r.below(3) } else { b.len() };
        [be(kind, 2), be(n as u64, 2), b].concat()
    }

    pub fn mmtp(&mut self, h: &Head, payload: &[u8]) -> Vec<u8> {
        let (counter, extended) = (self.r.once_in(8), self.r.once_in(h.extended));
        let version = if self.r.once_in(60) { self.r.below(4) as u8 } else { 0 };
        let fec = self.r.byte() & 0x1D;
        let mut b = vec![version << 6 | u8::from(counter) << 5 | fec | u8::from(extended) << 1];
        b.push(h.kind | if self.r.once_in(8) { self.r.byte() & 0xC0 } else { 0 });
        b.extend(h.packet_id.to_be_bytes());
        b.extend(self.word(4));
        b.extend(h.sequence.to_be_bytes());
        if counter {
            b.extend(self.word(4));
        }
        if extended {
            b.extend(self.extension());
        }
        if self.r.once_in(80) {
            b.truncate(self.r.between(8, b.len()));
            return b;
        }
        b.extend_from_slice(payload);
        b
    }

    /// IPv4 with an IHL that may be any: ports and payload stand where it says, within the header too.
    fn ipv4(&mut self, port: u16, payload: &[u8]) -> Vec<u8> {
        let words = if self.r.once_in(5) { self.r.below(16) } else { 5 };
        let mut b = vec![0; (4 * words + 8).max(20)];
        b[1..20].copy_from_slice(&self.r.bytes(19));
        let at = 4 * words;
        b[at + 2..at + 4].copy_from_slice(&port.to_be_bytes());
        b.truncate((at + 8).max(20));
        let start = at + 8;
        b.resize(b.len().max(start + payload.len()), 0);
        b[start..start + payload.len()].copy_from_slice(payload);
        b[0] = if self.r.once_in(40) { self.r.byte() } else { 0x40 | words as u8 };
        b[9] = if self.r.once_in(40) { self.r.byte() } else { 17 };
        b
    }

    fn ipv6(&mut self, port: u16, payload: &[u8]) -> Vec<u8> {
        let mut b = self.r.bytes(48);
        b[0] = if self.r.once_in(40) { self.r.byte() } else { 0x60 };
        b[6] = if self.r.once_in(40) { self.r.byte() } else { 17 };
        b[42..44].copy_from_slice(&port.to_be_bytes());
        b.extend_from_slice(payload);
        b
    }

    fn compressed(&mut self, port: u16, payload: &[u8]) -> Vec<u8> {
        let kind = if self.r.once_in(60) { self.r.byte() } else { self.r.pick(&[0x61, 0x61, 0x21, 0x20, 0x60]) };
        let mut b = [self.word(2), vec![kind]].concat();
        let protocol = if self.r.once_in(40) { self.r.byte() } else { 17 };
        match kind {
            0x20 => {
                b.extend(self.r.bytes(20));
                b[10] = protocol;
                b[21..23].copy_from_slice(&port.to_be_bytes());
            }
            0x60 => {
                b.extend(self.r.bytes(42));
                b[7] = protocol;
                b[43..45].copy_from_slice(&port.to_be_bytes());
            }
            0x21 => b.extend(self.word(2)),
            _ => {}
        }
        b.extend_from_slice(payload);
        b
    }

    /// A datagram to a port, with its kind.
    pub fn datagram(&mut self, port: u16, payload: &[u8]) -> (u8, Vec<u8>) {
        let (kind, mut b) = match self.r.below(8) {
            0 | 1 => (1, self.ipv4(port, payload)),
            2 | 3 => (2, self.ipv6(port, payload)),
            _ => (3, self.compressed(port, payload)),
        };
        if self.r.once_in(100) {
            b.truncate(self.r.below(b.len().min(60) + 1));
        }
        (kind, b)
    }

    /// A packet that is neither media nor a message: time, sections, and what means nothing.
    pub fn other_packet(&mut self) -> (u8, Vec<u8>) {
        match self.r.below(20) {
            0..3 => {
                let n = self.r.pick(&[0, 39, 47, 48, 48, 48, 49, 60]);
                let time = self.r.bytes(n);
                self.datagram(123, &time)
            }
            3 => {
                let n = self.r.pick(&[0, 1, 11, 12, 13, 30]);
                let junk = self.r.bytes(n);
                self.datagram(5000, &junk)
            }
            4 => {
                let (kind, n) = (self.r.pick(&[0, 1, 2, 3, 4, 0x7F, 0xFD, 0xFE, 0xFF]), self.r.below(60));
                (kind, self.r.bytes(n))
            }
            _ => (0xFE, self.control_data()),
        }
    }
}
