//! The time of the Rust's `Decoder::push` on plain media packets: 1,400 bytes of data each, one whole unit, 8 ids in turn. Best of 25
//! rounds of 80,000 packets; bench/push.c has the same packets.
use isdb_mmt::decoder::Decoder;
use isdb_tlv::tlv::{Packet, PacketType};
use std::time::Instant;

fn main() {
    let mut data = vec![0u8; 1400];
    data[..3].copy_from_slice(&[0x00, 0x10, 0x61]);
    data[15..17].copy_from_slice(&(1400u16 - 17).to_be_bytes());
    data[17] = 0x28;
    data[22] = 7;
    let mut p = Packet { kind: PacketType::from_byte(3), data };
    let mut d = Decoder::new();
    let (mut best, mut bytes, mut out) = (f64::MAX, 0usize, Vec::new());
    let mut sequence = 0u32;
    for _ in 0..25 {
        let start = Instant::now();
        for _ in 0..10_000 {
            sequence = sequence.wrapping_add(1);
            p.data[11..15].copy_from_slice(&sequence.to_be_bytes());
            for id in 0..8u16 {
                p.data[5..7].copy_from_slice(&(0xF100 + id).to_be_bytes());
                out.clear();
                d.push(&p, &mut out);
                bytes += out[0].data.len();
            }
        }
        best = best.min(start.elapsed().as_secs_f64() / 80_000.0);
    }
    println!("Decoder::push: {:.1} ns a packet ({bytes} data bytes)", best * 1e9);
}
