//! Locations and descriptors.
use super::calls;
use super::{given, part, walk};

/// Where an asset, a package or a message travels (ARIB STD-B60, Table 7-9).
#[derive(Debug, Clone, PartialEq, Eq)]
pub enum Location {
    /// By this packet id in the same IP flow.
    SameFlow(u16),
    /// In an IPv4 flow.
    Ipv4 {
        /// Source address.
        src: [u8; 4],
        /// Destination address.
        dst: [u8; 4],
        /// Destination port.
        port: u16,
        /// MMTP packet id.
        packet_id: u16,
    },
    /// In an IPv6 flow.
    Ipv6 {
        /// Source address.
        src: [u8; 16],
        /// Destination address.
        dst: [u8; 16],
        /// Destination port.
        port: u16,
        /// MMTP packet id.
        packet_id: u16,
    },
    /// In MPEG-2 TS packets of a broadcast network.
    Mpeg2Ts {
        /// Network id.
        network_id: u16,
        /// Transport stream id.
        ts_id: u16,
        /// The PID field, all 16 bits of it.
        pid: u16,
    },
    /// In MPEG-2 TS packets of an IPv6 flow.
    Mpeg2TsIpv6 {
        /// Destination port.
        port: u16,
        /// The PID field, all 16 bits of it.
        pid: u16,
    },
    /// At a URL.
    Url(Vec<u8>),
}

/// The bytes of an IPv6 address in two halves.
pub(super) fn ipv6(high: u64, low: u64) -> [u8; 16] {
    (u128::from(high) << 64 | u128::from(low)).to_be_bytes()
}

impl Location {
    /// The location at the start of some bytes, and how many it took.
    pub fn parse(bytes: &[u8]) -> Option<(Location, usize)> {
        let v = calls::location(bytes, 0).ok()?;
        let (port, packet_id, pid) = (v[5] as u16, v[6] as u16, v[9] as u16);
        let location = match v[0] {
            0 => Location::SameFlow(packet_id),
            1 => Location::Ipv4 { src: (v[2] as u32).to_be_bytes(), dst: (v[4] as u32).to_be_bytes(), port, packet_id },
            2 => Location::Ipv6 { src: ipv6(v[1], v[2]), dst: ipv6(v[3], v[4]), port, packet_id },
            3 => Location::Mpeg2Ts { network_id: v[7] as u16, ts_id: v[8] as u16, pid },
            4 => Location::Mpeg2TsIpv6 { port, pid },
            _ => Location::Url(part(bytes, &v[10..]).to_vec()),
        };
        Some((location, v[12] as usize))
    }

    /// The MMTP packet id that it designates.
    pub fn packet_id(&self) -> Option<u16> {
        match *self {
            Location::SameFlow(packet_id) | Location::Ipv4 { packet_id, .. } | Location::Ipv6 { packet_id, .. } => Some(packet_id),
            Location::Mpeg2Ts { .. } | Location::Mpeg2TsIpv6 { .. } | Location::Url(_) => None,
        }
    }
}

/// A descriptor as it stands.
#[derive(Debug, Clone, PartialEq, Eq)]
pub struct Raw {
    /// Its tag.
    pub tag: u16,
    /// What stands behind its length.
    pub body: Vec<u8>,
}

/// When an MPU is presented: an entry of an MPU timestamp descriptor.
#[derive(Debug, Clone, Copy, PartialEq, Eq)]
pub struct MpuTimestamp {
    /// Number of the MPU.
    pub mpu_sequence_number: u32,
    /// An NTP timestamp.
    pub presentation_time: u64,
}

/// An MPU of an extended timestamp descriptor.
#[derive(Debug, Clone, PartialEq, Eq)]
pub struct MpuExtended {
    /// Number of the MPU.
    pub mpu_sequence_number: u32,
    /// Leap indicator of its presentation time.
    pub leap_indicator: u8,
    /// How long before its presentation its first access unit is decoded, in units of the timescale.
    pub decoding_time_offset: u16,
    /// Access units in decoding order: DTS-PTS offset, and PTS offset (its own, or the descriptor's default).
    pub access_units: Vec<(u16, Option<u16>)>,
}

/// An extended timestamp descriptor.
#[derive(Debug, Clone, PartialEq, Eq)]
pub struct ExtendedTimestamp {
    /// Time units per second.
    pub timescale: Option<u32>,
    /// The PTS offset of every access unit.
    pub default_pts_offset: Option<u16>,
    /// The MPUs.
    pub mpus: Vec<MpuExtended>,
}

/// A descriptor (ARIB STD-B60, 7.4). Texts are UTF-8 as they came.
#[derive(Debug, Clone, PartialEq, Eq)]
pub enum Descriptor {
    /// 0001h: when MPUs are presented.
    MpuTimestamp(Vec<MpuTimestamp>),
    /// 8026h: when access units are decoded and presented.
    ExtendedTimestamp(ExtendedTimestamp),
    /// 8004h: which CA system, and where its ECM or EMM travels.
    AccessControl {
        /// CA system id.
        ca_system_id: u16,
        /// Absent where it cannot be read.
        location: Option<Location>,
    },
    /// 8005h: what is scrambled, and how.
    Scrambler {
        /// 1: MMTP packets, 2: IP packets.
        layer_type: u8,
        /// 1: AES, 2: Camellia.
        system_id: u8,
    },
    /// 8011h.
    StreamIdentifier {
        /// Component tag.
        component_tag: u16,
    },
    /// 8019h: a service's name.
    Service {
        /// Service type.
        service_type: u8,
        /// Name of the provider.
        provider: Vec<u8>,
        /// Name of the service.
        name: Vec<u8>,
    },
    /// 800Dh: service ids and types.
    ServiceList(Vec<(u16, u8)>),
    /// F001h: an event's name.
    ShortEvent {
        /// ISO 639 language code.
        language: [u8; 3],
        /// Name of the event.
        name: Vec<u8>,
        /// What it is about.
        text: Vec<u8>,
    },
    /// 8012h: genres, by two levels and the broadcaster's own byte.
    Content(Vec<(u8, u8, u8)>),
    /// 800Ah: the fields that name the stream.
    Hevc {
        /// Profile.
        profile_idc: u8,
        /// Tier.
        tier: bool,
        /// Level.
        level_idc: u8,
    },
    /// 8018h: a broadcaster's name.
    BroadcasterName(Vec<u8>),
    /// Another tag, or a body too short for its tag.
    Other(Raw),
}

fn timestamps(body: &[u8]) -> Vec<MpuTimestamp> {
    walk(0, 2, |at| calls::timestamp(body, at))
        .map(|v| MpuTimestamp { mpu_sequence_number: v[0] as u32, presentation_time: v[1] })
        .collect()
}

/// The access units of an MPU whose bytes these are; `head` is what the descriptor's head says: default?, default, own.
fn access_units(units: &[u8], head: (u8, u16, u8)) -> Vec<(u16, Option<u16>)> {
    walk(0, 3, |at| calls::access_unit(units, head.0, head.1, head.2, at))
        .map(|v| (v[0] as u16, given(&v[1..]).map(|x| x as u16)))
        .collect()
}

fn mpus(body: &[u8], head: (u8, u16, u8), start: u64) -> Vec<MpuExtended> {
    walk(start, 6, |at| calls::mpu(body, head.2, at))
        .map(|v| MpuExtended {
            mpu_sequence_number: v[0] as u32,
            leap_indicator: v[1] as u8,
            decoding_time_offset: v[2] as u16,
            access_units: access_units(part(body, &v[4..]), head),
        })
        .collect()
}

/// `v` are the numbers behind the kind.
fn extended(body: &[u8], v: &[u64]) -> ExtendedTimestamp {
    ExtendedTimestamp {
        timescale: given(v).map(|x| x as u32),
        default_pts_offset: given(&v[2..]).map(|x| x as u16),
        mpus: mpus(body, (v[2] as u8, v[3] as u16, v[4] as u8), v[5]),
    }
}

/// The services of a service list: id and type.
pub(super) fn listed_services(body: &[u8]) -> Vec<(u16, u8)> {
    walk(0, 2, |at| calls::listed_service(body, at)).map(|v| (v[0] as u16, v[1] as u8)).collect()
}

fn genres(body: &[u8]) -> Vec<(u8, u8, u8)> {
    walk(0, 3, |at| calls::genre(body, at)).map(|v| (v[0] as u8, v[1] as u8, v[2] as u8)).collect()
}

fn access_control(body: &[u8], v: &[u64]) -> Descriptor {
    let location = if v[1] == 0 { None } else { Location::parse(&body[2..]) };
    Descriptor::AccessControl { ca_system_id: v[0] as u16, location: location.map(|l| l.0) }
}

impl Descriptor {
    /// The descriptor of a tag and a body.
    pub fn decode(tag: u16, body: &[u8]) -> Descriptor {
        let text = |v: &[u64]| part(body, v).to_vec();
        let Ok([kind, v @ ..]) = calls::decode(tag, body) else { unreachable!("every descriptor is decoded") };
        match kind {
            1 => Descriptor::MpuTimestamp(timestamps(body)),
            2 => Descriptor::ExtendedTimestamp(extended(body, &v)),
            3 => access_control(body, &v),
            4 => Descriptor::Scrambler { layer_type: v[0] as u8, system_id: v[1] as u8 },
            5 => Descriptor::StreamIdentifier { component_tag: v[0] as u16 },
            6 => Descriptor::Service { service_type: v[0] as u8, provider: text(&v[1..]), name: text(&v[3..]) },
            7 => Descriptor::ServiceList(listed_services(body)),
            8 => {
                Descriptor::ShortEvent { language: [v[0] as u8, v[1] as u8, v[2] as u8], name: text(&v[3..]), text: text(&v[5..]) }
            }
            9 => Descriptor::Content(genres(body)),
            10 => Descriptor::Hevc { profile_idc: v[0] as u8, tier: v[1] != 0, level_idc: v[2] as u8 },
            11 => Descriptor::BroadcasterName(text(&v)),
            _ => Descriptor::Other(Raw { tag, body: body.to_vec() }),
        }
    }

    /// The descriptors of a loop, up to its end or to one that does not fit.
    pub fn all(bytes: &[u8]) -> Vec<Descriptor> {
        walk(0, 3, |at| calls::descriptor(bytes, at)).map(|v| Descriptor::decode(v[0] as u16, part(bytes, &v[1..]))).collect()
    }
}

/// A descriptor of a TLV-NIT.
#[derive(Debug, Clone, PartialEq, Eq)]
pub struct TlvDescriptor {
    /// Its tag.
    pub tag: u8,
    /// What stands behind its length.
    pub body: Vec<u8>,
}

impl TlvDescriptor {
    /// The descriptors of a loop.
    pub fn all(bytes: &[u8]) -> Vec<TlvDescriptor> {
        walk(0, 3, |at| calls::tlv(bytes, at))
            .map(|v| TlvDescriptor { tag: v[0] as u8, body: part(bytes, &v[1..]).to_vec() })
            .collect()
    }

    /// The frequency of a satellite delivery system descriptor.
    pub fn satellite_frequency_khz(&self) -> Option<u64> {
        calls::frequency_khz(self.tag, &self.body).ok().map(|v| v[0])
    }

    /// The text of a network name descriptor.
    pub fn network_name(&self) -> Option<&[u8]> {
        (self.tag == 0x40).then_some(&self.body)
    }

    /// The services of a service list descriptor: id and type.
    pub fn service_list(&self) -> Option<Vec<(u16, u8)>> {
        (self.tag == 0x41).then(|| listed_services(&self.body))
    }
}
