//! A feed: packets that are made before any time is taken, and that can be pushed again and again.
use isdb_tlv::tlv::{Packet, PacketType};
use std::collections::BTreeMap;

/// A packet for either side. Of an MMTP packet, `stride` is how many its packet id has in the feed.
#[derive(Clone)]
pub struct Step {
    pub kind: u8,
    pub packet: Packet,
    stride: u32,
}

#[derive(Clone)]
pub struct Feed(pub Vec<Step>);

/// A TLV packet's kind and data. MMTP stands in compressed IP with a header of 3 bytes.
pub type Bytes = (u8, Vec<u8>);

/// Bytes of a TLV packet before its data.
pub const HEADER: usize = 4;

const COMPRESSED: u8 = 3;
const PACKET_ID: std::ops::Range<usize> = 5..7;
const SEQUENCE: std::ops::Range<usize> = 11..15;

impl Feed {
    /// With the numbers of each packet id one behind the other, from 0 on.
    pub fn of(packets: Vec<Bytes>) -> Feed {
        let mut next = BTreeMap::new();
        let mut steps: Vec<Step> = packets.into_iter().map(|p| numbered(p, &mut next)).collect();
        for s in steps.iter_mut().filter(|s| s.kind == COMPRESSED) {
            s.stride = next[&s.packet.data[PACKET_ID]];
        }
        Feed(steps)
    }

    /// The same packets with the numbers that follow, so that pushing them again is no gap.
    pub fn advance(&mut self) {
        for s in self.0.iter_mut().filter(|s| s.kind == COMPRESSED) {
            let number = &mut s.packet.data[SEQUENCE];
            let next = u32::from_be_bytes((&*number).try_into().unwrap()).wrapping_add(s.stride);
            number.copy_from_slice(&next.to_be_bytes());
        }
    }

    /// The packets one behind the other, as a recording has them.
    pub fn framed(&self) -> Vec<u8> {
        let header = |s: &Step| -> [u8; HEADER] { [0x7F, s.kind, (s.packet.data.len() >> 8) as u8, s.packet.data.len() as u8] };
        self.0.iter().flat_map(|s| header(s).into_iter().chain(s.packet.data.iter().copied())).collect()
    }

    pub fn bytes(&self) -> usize {
        self.0.iter().map(|s| s.packet.data.len()).sum()
    }
}

fn numbered((kind, mut data): Bytes, next: &mut BTreeMap<Vec<u8>, u32>) -> Step {
    if kind == COMPRESSED {
        let number = next.entry(data[PACKET_ID].to_vec()).or_default();
        data[SEQUENCE].copy_from_slice(&number.to_be_bytes());
        *number += 1;
    }
    Step { kind, packet: Packet { kind: PacketType::from_byte(kind), data }, stride: 0 }
}
