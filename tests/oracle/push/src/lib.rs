//! What the programs here say of a decoder.
pub mod kept;
pub mod session;

use isdb_mmt::decoder::Decoder;
use isdb_mmt::mpu::AssetStats;

/// The counters; `splits` is what the descriptor loops of this decoder have added to the process's count.
pub fn counters(d: &Decoder, splits: u64) -> [(&'static str, u64); 12] {
    let (c, e) = (&d.counters, &d.counters.message_errors);
    [
        ("tlv_packets", c.tlv_packets),
        ("ip_errors", c.ip_errors),
        ("non_mmtp", c.non_mmtp),
        ("ntp", c.ntp),
        ("tables", c.tables),
        ("crc_errors", c.crc_errors),
        ("malformed", c.malformed),
        ("version_changes", c.version_changes),
        ("message_orphan_fragments", e.orphan_fragments),
        ("message_oversize", e.oversize),
        ("message_malformed", e.malformed),
        ("split_errors", splits),
    ]
}

/// The counts of a media id.
pub fn counts(s: &AssetStats) -> [(&'static str, u64); 9] {
    [
        ("packets", s.packets),
        ("packets_lost", s.packets_lost),
        ("scrambled_packets", s.scrambled_packets),
        ("mfus", s.mfus),
        ("scrambled_mfus", s.scrambled_mfus),
        ("mfus_dropped", s.mfus_dropped),
        ("mpus", s.mpus),
        ("mpu_sequence_jumps", s.mpu_sequence_jumps),
        ("malformed", s.malformed),
    ]
}
