//! The Rust's side: its decoder, and a list for what it hands out that is cleared and used again.
use crate::feed::Step;
use isdb_mmt::decoder::Decoder;
use isdb_mmt::desc::split_errors;
use isdb_mmt::mpu::Mfu;
use std::hint::black_box;

pub struct Reference {
    pub decoder: Decoder,
    pub mfus: Vec<Mfu>,
    splits: u64,
}

impl Reference {
    pub fn open() -> Reference {
        Reference { decoder: Decoder::new(), mfus: Vec::with_capacity(64), splits: split_errors() }
    }

    #[inline]
    pub fn push(&mut self, step: &Step) {
        self.mfus.clear();
        self.decoder.push(&step.packet, &mut self.mfus);
        black_box(&self.mfus);
    }

    /// The twelve counters, in the library's order. Broken loops are counted for the whole process, which has one decoder at a time.
    pub fn counters(&self) -> [u64; 12] {
        let (c, e) = (&self.decoder.counters, &self.decoder.counters.message_errors);
        [
            c.tlv_packets,
            c.ip_errors,
            c.non_mmtp,
            c.ntp,
            c.tables,
            c.crc_errors,
            c.malformed,
            c.version_changes,
            e.orphan_fragments,
            e.oversize,
            e.malformed,
            split_errors() - self.splits,
        ]
    }
}
