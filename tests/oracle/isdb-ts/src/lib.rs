//! Stand-in for what the TLV files use of isdb-ts.
pub mod crc {
    /// The register after one byte, bit by bit.
    const fn after(byte: u8) -> u32 {
        let (mut z, mut i) = ((byte as u32) << 24, 0);
        while i < 8 {
            z = if z >> 31 == 1 { (z << 1) ^ 0x04C1_1DB7 } else { z << 1 };
            i += 1;
        }
        z
    }

    const TABLE: [u32; 256] = {
        let (mut t, mut i) = ([0; 256], 0);
        while i < 256 {
            t[i] = after(i as u8);
            i += 1;
        }
        t
    };

    /// CRC-32 of ISO/IEC 13818-1.
    pub fn crc32(data: &[u8]) -> u32 {
        data.iter().fold(0xFFFF_FFFF, |z, &b| z << 8 ^ TABLE[(z >> 24) as usize ^ usize::from(b)])
    }
}

#[derive(Debug, Clone, PartialEq, Eq)]
pub enum Error {
    Overflow { what: &'static str, value: u64, bits: u32 },
}

pub type Result<T> = std::result::Result<T, Error>;

/// A PID field, as its 16 bits stand.
#[derive(Debug, Clone, Copy, PartialEq, Eq)]
pub struct Pid(pub u16);

impl Pid {
    pub fn from_wire(bits: u16) -> Self {
        Self(bits)
    }
}
