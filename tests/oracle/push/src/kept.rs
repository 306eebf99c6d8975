//! The bytes of the tables that a decoder keeps. It keeps them parsed: the bytes are found among those that the feed carries, and must parse
//! to what is kept.
use isdb_mmt::decoder::Decoder;
use isdb_mmt::message::{Messages, TableBytes};
use isdb_mmt::table::{Amt, Bit, Eit, Mpt, Nit, Plt, Sdt, SectionError, Tot};
use isdb_tlv::ip::{compressed, ipv4, ipv6};
use isdb_tlv::mmtp::{self, PayloadType};
use isdb_tlv::tlv::{Packet, PacketType};
use std::collections::BTreeMap;

type Key = (u8, u16, u8);

/// The tables that a feed carries, in order: of messages, and the sections of control signals.
#[derive(Default)]
pub struct Carried {
    messages: Messages,
    numbers: BTreeMap<u16, u32>,
    tables: Vec<TableBytes>,
    sections: Vec<Vec<u8>>,
}

impl Carried {
    pub fn push(&mut self, p: &Packet) {
        let datagram = match p.kind {
            PacketType::Ipv4 => ipv4(&p.data),
            PacketType::Ipv6 => ipv6(&p.data),
            PacketType::Compressed => compressed(&p.data),
            PacketType::Control => return self.sections.extend(isdb_tlv::si::sections(&p.data).into_iter().map(|s| s.bytes.to_vec())),
            _ => return,
        };
        let Ok(d) = datagram else { return };
        if d.flow.as_ref().is_some_and(|f| f.dport == 123) {
            return;
        }
        if let Some((h, payload)) = mmtp::parse(&d.payload)
            && h.payload_type == PayloadType::Messages
        {
            let last = self.numbers.insert(h.packet_id, h.sequence);
            let gap = last.is_some_and(|l| h.sequence != l.wrapping_add(1));
            self.messages.push(h.packet_id, payload, gap, &mut self.tables);
        }
    }

    fn of_messages(&self) -> Vec<&[u8]> {
        self.tables.iter().map(|t| &t.bytes[..]).collect()
    }

    fn of_signals(&self) -> Vec<&[u8]> {
        self.sections.iter().map(|s| &s[..]).collect()
    }

    fn of_line(&self, id: u16) -> Vec<&[u8]> {
        self.tables.iter().filter(|t| t.packet_id == id).map(|t| &t.bytes[..]).collect()
    }
}

/// A section's version.
pub fn version(b: &[u8]) -> u8 {
    b[5] >> 1 & 31
}

fn declared_section(b: &[u8]) -> &[u8] {
    &b[..3 + (usize::from(b[1] & 15) << 8 | usize::from(b[2]))]
}

fn declared_table(b: &[u8]) -> &[u8] {
    &b[..4 + (usize::from(b[2]) << 8 | usize::from(b[3]))]
}

/// The declared bytes of the last table with one of the ids that parses, which must be what is kept.
fn latest<'a, T: PartialEq>(
    of: &[&'a [u8]],
    ids: std::ops::RangeInclusive<u8>,
    declared: impl Fn(&'a [u8]) -> &'a [u8],
    parse: impl Fn(&[u8]) -> Option<T>,
    kept: Option<&T>,
) -> Option<&'a [u8]> {
    let last = of.iter().rfind(|b| b.first().is_some_and(|id| ids.contains(id)) && parse(b).is_some());
    let bytes = last.map(|b| declared(b));
    assert!(bytes.and_then(&parse).as_ref() == kept, "what is kept is not what {bytes:02x?} parse to");
    bytes
}

/// For each key the declared bytes of the first section in the last run of equal version among those that parse,
/// which must be what is kept.
fn sections<'a, T: PartialEq>(
    of: &[&'a [u8]],
    parse: impl Fn(&[u8]) -> Result<T, SectionError>,
    kept: &BTreeMap<Key, T>,
) -> Vec<(u32, &'a [u8])> {
    let one = |(key, value): (&Key, &T)| {
        let named = |b: &&[u8]| b.len() > 6 && (b[0], u16::from_be_bytes([b[3], b[4]]), b[6]) == *key;
        let mut first: Option<&'a [u8]> = None;
        for b in of.iter().copied().filter(named).filter(|b| parse(b).is_ok()) {
            if first.is_none_or(|f| version(f) != version(b)) {
                first = Some(b);
            }
        }
        let bytes = declared_section(first.unwrap());
        assert!(parse(bytes).as_ref() == Ok(value), "what is kept for {key:?} is not what {bytes:02x?} parse to");
        (u32::from(key.0) << 24 | u32::from(key.1) << 8 | u32::from(key.2), bytes)
    };
    kept.iter().map(one).collect()
}

impl Carried {
    pub fn plt(&self, d: &Decoder) -> Option<&[u8]> {
        latest(&self.of_messages(), 0x80..=0x80, declared_table, Plt::parse, d.plt.as_ref())
    }

    pub fn tot(&self, d: &Decoder) -> Option<&[u8]> {
        latest(&self.of_messages(), 0xA1..=0xA1, declared_section, |b| Tot::parse(b).ok(), d.tot.as_ref())
    }

    pub fn mpt(&self, d: &Decoder, id: u16) -> Option<&[u8]> {
        latest(&self.of_line(id), 0x11..=0x20, declared_table, Mpt::parse, d.mpts.get(&id))
    }

    /// The sections of all sorts, one sort behind the other.
    pub fn sections(&self, d: &Decoder) -> Vec<(u32, &[u8])> {
        let (messages, signals) = (self.of_messages(), self.of_signals());
        let mut all = sections(&messages, Eit::parse, &d.eits);
        all.extend(sections(&messages, Sdt::parse, &d.sdts));
        all.extend(sections(&messages, Bit::parse, &d.bits));
        all.extend(sections(&signals, Nit::parse, &d.nits));
        all.extend(sections(&signals, Amt::parse, &d.amts));
        all
    }
}
