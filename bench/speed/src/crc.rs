//! The CRC of ISO/IEC 13818-1 by a table, a byte at a time.

const fn after(byte: u8) -> u32 {
    let (mut z, mut i) = ((byte as u32) << 24, 0);
    while i < 8 {
        z = if z >> 31 == 1 { (z << 1) ^ 0x04C1_1DB7 } else { z << 1 };
        i += 1;
    }
    z
}

static TABLE: [u32; 256] = {
    let (mut t, mut i) = ([0; 256], 0);
    while i < 256 {
        t[i] = after(i as u8);
        i += 1;
    }
    t
};

#[inline(never)]
pub fn by_bytes(b: &[u8]) -> u32 {
    b.iter().fold(0xFFFF_FFFF, |z, &x| z << 8 ^ TABLE[(z >> 24) as usize ^ usize::from(x)])
}
