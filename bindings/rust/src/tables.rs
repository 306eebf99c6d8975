//! Tables, read whole: every element, with its bytes. The bytes are those of a kept table, or any others.
//!
//! Which numbers stand where is said in include/isdb_tables.h, and from where each walk starts. Where a table is read, it is proved that
//! its walks give all its elements and that every part lies within its bytes.
mod calls;
mod descriptor;

pub use descriptor::{Descriptor, ExtendedTimestamp, Location, MpuExtended, MpuTimestamp, Raw, TlvDescriptor};

use calls::Numbers;
use std::{error::Error, fmt, iter, net::IpAddr};

/// The bytes of a part by its start and length, the first two numbers of `v`.
fn part<'a>(bytes: &'a [u8], v: &[u64]) -> &'a [u8] {
    &bytes[v[0] as usize..(v[0] + v[1]) as usize]
}

/// A number that may be absent: whether it is there, and the number.
fn given(v: &[u64]) -> Option<u64> {
    (v[0] != 0).then_some(v[1])
}

/// The answers of a walk from a place up to its end; `v[next]` is the place to go on from.
fn walk<'a>(from: u64, next: usize, step: impl Fn(usize) -> Result<Numbers, u8> + 'a) -> impl Iterator<Item = Numbers> + 'a {
    let mut at = from as usize;
    iter::from_fn(move || {
        let v = step(at).ok()?;
        at = v[next] as usize;
        Some(v)
    })
}

/// The CRC over some bytes: 0 over a whole section, its own CRC included.
pub fn crc32(bytes: &[u8]) -> u32 {
    calls::crc32(bytes)
}

/// Seconds since 1970 of an NTP timestamp.
pub fn ntp_to_unix(timestamp: u64) -> f64 {
    calls::ntp_to_unix(timestamp)
}

/// An asset of a package.
#[derive(Debug, Clone, PartialEq, Eq)]
pub struct Asset {
    /// Identifier type.
    pub identifier_type: u8,
    /// Scheme of the asset id.
    pub asset_id_scheme: u32,
    /// Asset id.
    pub asset_id: Vec<u8>,
    /// Four characters, as `hev1`.
    pub asset_type: [u8; 4],
    /// Clock relation flag.
    pub clock_relation: bool,
    /// Where it travels.
    pub locations: Vec<Location>,
    /// Its descriptors.
    pub descriptors: Vec<Descriptor>,
}

/// So many locations, from a place on.
fn locations(t: &[u8], from: u64, count: u64) -> Vec<Location> {
    let mut at = from as usize;
    let each = (0..count).map_while(|_| {
        let (location, size) = Location::parse(&t[at..])?;
        at += size;
        Some(location)
    });
    each.collect()
}

impl Asset {
    fn of(t: &[u8], v: Numbers) -> Asset {
        Asset {
            identifier_type: v[0] as u8,
            asset_id_scheme: v[1] as u32,
            asset_id: part(t, &v[2..]).to_vec(),
            asset_type: (v[4] as u32).to_be_bytes(),
            clock_relation: v[5] != 0,
            locations: locations(t, v[7], v[6]),
            descriptors: Descriptor::all(part(t, &v[8..])),
        }
    }

    /// The MMTP packet id of its first location that has one.
    pub fn packet_id(&self) -> Option<u16> {
        self.locations.iter().find_map(Location::packet_id)
    }

    /// The component tag of its first stream identifier descriptor.
    pub fn component_tag(&self) -> Option<u16> {
        self.descriptors.iter().find_map(|d| match *d {
            Descriptor::StreamIdentifier { component_tag } => Some(component_tag),
            _ => None,
        })
    }
}

/// An MPT: the assets of a package (ARIB STD-B60, Table 7-6).
#[derive(Debug, Clone, PartialEq, Eq)]
pub struct Mpt {
    /// 20h, or 11h to 1Fh for a subset.
    pub table_id: u8,
    /// Version.
    pub version: u8,
    /// MPT mode.
    pub mode: u8,
    /// Package id.
    pub package_id: Vec<u8>,
    /// The last two bytes of the package id.
    pub service_id: Option<u16>,
    /// The table's own descriptors.
    pub descriptors: Vec<Descriptor>,
    /// Assets.
    pub assets: Vec<Asset>,
    /// How many of its descriptor loops end at a descriptor that does not fit.
    pub breaks: u64,
}

impl Mpt {
    /// A table, its table id first; none where it cannot be read.
    pub fn parse(t: &[u8]) -> Option<Mpt> {
        let v = calls::mpt(t).ok()?;
        let assets = walk(v[8], 12, |at| calls::asset(t, at)).take(v[7] as usize);
        Some(Mpt {
            table_id: v[0] as u8,
            version: v[1] as u8,
            mode: v[2] as u8,
            package_id: part(t, &v[3..]).to_vec(),
            service_id: given(&v[9..]).map(|x| x as u16),
            descriptors: Descriptor::all(part(t, &v[5..])),
            assets: assets.map(|a| Asset::of(t, a)).collect(),
            breaks: v[11],
        })
    }
}

/// A package of a PLT.
#[derive(Debug, Clone, PartialEq, Eq)]
pub struct Package {
    /// Package id.
    pub package_id: Vec<u8>,
    /// Where its PA message travels.
    pub location: Location,
}

/// An IP delivery of a PLT.
#[derive(Debug, Clone, Copy, PartialEq, Eq)]
pub struct IpDelivery {
    /// Transport file id.
    pub transport_file_id: u32,
    /// Location type.
    pub location_type: u8,
}

/// A PLT: where packages travel (ARIB STD-B60, Table 7-11).
#[derive(Debug, Clone, PartialEq, Eq)]
pub struct Plt {
    /// Version.
    pub version: u8,
    /// Packages.
    pub packages: Vec<Package>,
    /// IP deliveries.
    pub ip_deliveries: Vec<IpDelivery>,
}

impl Plt {
    /// A table, its table id first; none where it cannot be read.
    pub fn parse(t: &[u8]) -> Option<Plt> {
        let v = calls::plt(t).ok()?;
        let package = |p: Numbers| {
            let (location, _) = Location::parse(&t[p[2] as usize..])?;
            Some(Package { package_id: part(t, &p).to_vec(), location })
        };
        let packages = walk(5, 3, |at| calls::package(t, at)).take(v[1] as usize);
        let deliveries = walk(v[3], 2, |at| calls::delivery(t, at)).take(v[2] as usize);
        Some(Plt {
            version: v[0] as u8,
            packages: packages.map_while(package).collect(),
            ip_deliveries: deliveries.map(|d| IpDelivery { transport_file_id: d[0] as u32, location_type: d[1] as u8 }).collect(),
        })
    }
}

/// Why a section was not read.
#[derive(Debug, Clone, Copy, PartialEq, Eq)]
pub enum SectionError {
    /// It has fewer bytes than its header or its length says.
    Truncated,
    /// Its CRC does not match.
    Crc,
    /// Its body does not follow the table's structure.
    Malformed,
}

impl SectionError {
    fn of(code: u8) -> SectionError {
        match code {
            23 => SectionError::Truncated,
            24 => SectionError::Crc,
            _ => SectionError::Malformed,
        }
    }
}

impl fmt::Display for SectionError {
    fn fmt(&self, f: &mut fmt::Formatter<'_>) -> fmt::Result {
        f.write_str(match self {
            SectionError::Truncated => "the section is not whole",
            SectionError::Crc => "the section's CRC does not match",
            SectionError::Malformed => "the section's body does not follow the table's structure",
        })
    }
}

impl Error for SectionError {}

/// The header of a section.
#[derive(Debug, Clone, Copy, PartialEq, Eq)]
pub struct SectionHeader {
    /// Table id.
    pub table_id: u8,
    /// Table id extension: service id of an EIT, TLV stream id of an SDT, network id of a BIT and a NIT.
    pub extension: u16,
    /// Version.
    pub version: u8,
    /// Whether it is valid now, and not only next.
    pub current: bool,
    /// Section number.
    pub section_number: u8,
    /// Number of the last section.
    pub last_section_number: u8,
}

/// A section's header and body, by the first eight numbers of `v`, and the numbers behind them.
fn opened(section: &[u8], v: Numbers) -> (SectionHeader, &[u8], [u64; 8]) {
    let [table_id, extension, version, current, section_number, last, _, _, rest @ ..] = v;
    let header = SectionHeader {
        table_id: table_id as u8,
        extension: extension as u16,
        version: version as u8,
        current: current != 0,
        section_number: section_number as u8,
        last_section_number: last as u8,
    };
    (header, part(section, &v[6..]), rest)
}

/// An event of an EIT.
#[derive(Debug, Clone, PartialEq, Eq)]
pub struct Event {
    /// Event id.
    pub event_id: u16,
    /// When it starts, Japan standard time: 16 bits of day number, 24 of BCD; all ones: not known.
    pub start: u64,
    /// How long it lasts: 24 bits of BCD; all ones: not known.
    pub duration: u32,
    /// Running status.
    pub running_status: u8,
    /// Whether it is scrambled.
    pub free_ca: bool,
    /// Its descriptors.
    pub descriptors: Vec<Descriptor>,
}

/// An MH-EIT section: the events of a service (ARIB STD-B60, Table 7-18).
#[derive(Debug, Clone, PartialEq, Eq)]
pub struct Eit {
    /// The section's header.
    pub header: SectionHeader,
    /// TLV stream id.
    pub tlv_stream_id: u16,
    /// Original network id.
    pub original_network_id: u16,
    /// Number of the segment's last section.
    pub segment_last_section_number: u8,
    /// Last table id.
    pub last_table_id: u8,
    /// Events.
    pub events: Vec<Event>,
    /// How many of its descriptor loops end at a descriptor that does not fit.
    pub breaks: u64,
}

impl Event {
    fn of(body: &[u8], v: Numbers) -> Event {
        Event {
            event_id: v[0] as u16,
            start: v[1],
            duration: v[2] as u32,
            running_status: v[3] as u8,
            free_ca: v[4] != 0,
            descriptors: Descriptor::all(part(body, &v[5..])),
        }
    }

    /// Name and text of its first short event descriptor.
    pub fn short_event(&self) -> Option<(&[u8], &[u8])> {
        self.descriptors.iter().find_map(|d| match d {
            Descriptor::ShortEvent { name, text, .. } => Some((&name[..], &text[..])),
            _ => None,
        })
    }
}

impl Eit {
    /// A whole section.
    pub fn parse(section: &[u8]) -> Result<Eit, SectionError> {
        let (header, body, v) = opened(section, calls::eit(section).map_err(SectionError::of)?);
        Ok(Eit {
            header,
            tlv_stream_id: v[0] as u16,
            original_network_id: v[1] as u16,
            segment_last_section_number: v[2] as u8,
            last_table_id: v[3] as u8,
            events: walk(6, 7, |at| calls::event(body, at)).map(|e| Event::of(body, e)).collect(),
            breaks: v[5],
        })
    }
}

/// A service of an SDT.
#[derive(Debug, Clone, PartialEq, Eq)]
pub struct SdtService {
    /// Service id.
    pub service_id: u16,
    /// Flags of the operator's own.
    pub eit_user_defined_flags: u8,
    /// Whether there is a schedule EIT.
    pub eit_schedule: bool,
    /// Whether there is a present and following EIT.
    pub eit_present_following: bool,
    /// Running status.
    pub running_status: u8,
    /// Whether it is scrambled.
    pub free_ca: bool,
    /// Its descriptors.
    pub descriptors: Vec<Descriptor>,
}

/// An MH-SDT section: the services of a TLV stream (ARIB STD-B60, Table 7-23).
#[derive(Debug, Clone, PartialEq, Eq)]
pub struct Sdt {
    /// The section's header.
    pub header: SectionHeader,
    /// Original network id.
    pub original_network_id: u16,
    /// Services.
    pub services: Vec<SdtService>,
    /// How many of its descriptor loops end at a descriptor that does not fit.
    pub breaks: u64,
}

impl SdtService {
    fn of(body: &[u8], v: Numbers) -> SdtService {
        SdtService {
            service_id: v[0] as u16,
            eit_user_defined_flags: v[1] as u8,
            eit_schedule: v[2] != 0,
            eit_present_following: v[3] != 0,
            running_status: v[4] as u8,
            free_ca: v[5] != 0,
            descriptors: Descriptor::all(part(body, &v[6..])),
        }
    }

    /// Type, provider and name of its first service descriptor.
    pub fn service(&self) -> Option<(u8, &[u8], &[u8])> {
        self.descriptors.iter().find_map(|d| match d {
            Descriptor::Service { service_type, provider, name } => Some((*service_type, &provider[..], &name[..])),
            _ => None,
        })
    }
}

impl Sdt {
    /// A whole section.
    pub fn parse(section: &[u8]) -> Result<Sdt, SectionError> {
        let (header, body, v) = opened(section, calls::sdt(section).map_err(SectionError::of)?);
        Ok(Sdt {
            header,
            original_network_id: v[0] as u16,
            services: walk(3, 8, |at| calls::service(body, at)).map(|s| SdtService::of(body, s)).collect(),
            breaks: v[2],
        })
    }
}

/// A broadcaster of a BIT.
#[derive(Debug, Clone, PartialEq, Eq)]
pub struct Broadcaster {
    /// Broadcaster id.
    pub broadcaster_id: u8,
    /// Its descriptors.
    pub descriptors: Vec<Descriptor>,
}

/// An MH-BIT section: the broadcasters of a network (ARIB STD-B60, Table 7-21).
#[derive(Debug, Clone, PartialEq, Eq)]
pub struct Bit {
    /// The section's header.
    pub header: SectionHeader,
    /// Broadcast view propriety.
    pub broadcast_view_propriety: bool,
    /// The first loop's descriptors.
    pub descriptors: Vec<Descriptor>,
    /// Broadcasters.
    pub broadcasters: Vec<Broadcaster>,
    /// How many of its descriptor loops end at a descriptor that does not fit.
    pub breaks: u64,
}

impl Bit {
    /// A whole section.
    pub fn parse(section: &[u8]) -> Result<Bit, SectionError> {
        let (header, body, v) = opened(section, calls::bit(section).map_err(SectionError::of)?);
        let broadcaster =
            |b: Numbers| Broadcaster { broadcaster_id: b[0] as u8, descriptors: Descriptor::all(part(body, &b[1..])) };
        Ok(Bit {
            header,
            broadcast_view_propriety: v[0] != 0,
            descriptors: Descriptor::all(part(body, &v[1..])),
            broadcasters: walk(v[1] + v[2], 3, |at| calls::broadcaster(body, at)).map(broadcaster).collect(),
            breaks: v[4],
        })
    }
}

/// A TLV stream of a NIT.
#[derive(Debug, Clone, PartialEq, Eq)]
pub struct NitStream {
    /// TLV stream id.
    pub tlv_stream_id: u16,
    /// Original network id.
    pub original_network_id: u16,
    /// Its descriptors.
    pub descriptors: Vec<TlvDescriptor>,
}

/// A TLV-NIT section: the TLV streams of a network (ARIB STD-B60, Table 5-1).
#[derive(Debug, Clone, PartialEq, Eq)]
pub struct Nit {
    /// The section's header.
    pub header: SectionHeader,
    /// The network's descriptors.
    pub descriptors: Vec<TlvDescriptor>,
    /// TLV streams.
    pub streams: Vec<NitStream>,
}

impl Nit {
    /// A whole section.
    pub fn parse(section: &[u8]) -> Result<Nit, SectionError> {
        let (header, body, v) = opened(section, calls::nit(section).map_err(SectionError::of)?);
        let streams = part(body, &v[2..]);
        let stream = |s: Numbers| NitStream {
            tlv_stream_id: s[0] as u16,
            original_network_id: s[1] as u16,
            descriptors: TlvDescriptor::all(part(streams, &s[2..])),
        };
        Ok(Nit {
            header,
            descriptors: TlvDescriptor::all(part(body, &v)),
            streams: walk(0, 4, |at| calls::stream(streams, at)).map(stream).collect(),
        })
    }
}

/// A service of an AMT: its IP flow. A mask is a length in bits.
#[derive(Debug, Clone, Copy, PartialEq, Eq)]
pub struct AmtService {
    /// Service id.
    pub service_id: u16,
    /// Source address and mask.
    pub src: (IpAddr, u8),
    /// Destination address and mask.
    pub dst: (IpAddr, u8),
}

/// An AMT section: the IP flows of services (ARIB STD-B60, Table 5-2).
#[derive(Debug, Clone, PartialEq, Eq)]
pub struct Amt {
    /// The section's header.
    pub header: SectionHeader,
    /// Services.
    pub services: Vec<AmtService>,
}

impl AmtService {
    fn of(v: Numbers) -> AmtService {
        let address = |high, low: u64| match v[1] {
            0 => IpAddr::from((low as u32).to_be_bytes()),
            _ => IpAddr::from(descriptor::ipv6(high, low)),
        };
        AmtService { service_id: v[0] as u16, src: (address(v[2], v[3]), v[4] as u8), dst: (address(v[5], v[6]), v[7] as u8) }
    }
}

impl Amt {
    /// A whole section.
    pub fn parse(section: &[u8]) -> Result<Amt, SectionError> {
        let (header, body, v) = opened(section, calls::amt(section).map_err(SectionError::of)?);
        let services = walk(2, 8, |at| calls::flow(body, at)).take(v[0] as usize);
        Ok(Amt { header, services: services.map(AmtService::of).collect() })
    }
}

/// An MH-TOT: the time (ARIB STD-B60, Table 7-25).
#[derive(Debug, Clone, PartialEq, Eq)]
pub struct Tot {
    /// Japan standard time: 16 bits of day number, 24 of BCD.
    pub jst: u64,
    /// Its descriptors.
    pub descriptors: Vec<Descriptor>,
    /// 1 where its descriptor loop ends at a descriptor that does not fit.
    pub breaks: u64,
}

impl Tot {
    /// A whole section.
    pub fn parse(section: &[u8]) -> Result<Tot, SectionError> {
        let v = calls::tot(section).map_err(SectionError::of)?;
        Ok(Tot { jst: v[0], descriptors: Descriptor::all(part(section, &v[1..])), breaks: v[3] })
    }
}
