//! Tables as crates/cases writes them: a fact a line.
use isdb::tables::{
    Amt, Asset, Bit, Descriptor, Eit, Location, Mpt, MpuExtended, Nit, Plt, Sdt, SectionHeader, TlvDescriptor, Tot,
};
use std::fmt::Display;
use std::net::IpAddr;

pub fn hex(bytes: &[u8]) -> String {
    match bytes {
        [] => "-".into(),
        _ => bytes.iter().map(|x| format!("{x:02x}")).collect(),
    }
}

fn maybe<T: Display>(x: Option<T>) -> String {
    x.map_or("none".into(), |x| x.to_string())
}

fn list(items: impl Iterator<Item = String>) -> String {
    let items: Vec<String> = items.collect();
    if items.is_empty() {
        "-".into()
    } else {
        items.join(",")
    }
}

pub fn location(l: &Location) -> String {
    match l {
        Location::SameFlow(id) => format!("same_flow {id}"),
        Location::Ipv4 { src, dst, port, packet_id } => format!("ipv4 {} {} {port} {packet_id}", hex(src), hex(dst)),
        Location::Ipv6 { src, dst, port, packet_id } => format!("ipv6 {} {} {port} {packet_id}", hex(src), hex(dst)),
        Location::Mpeg2Ts { network_id, ts_id, pid } => format!("mpeg2_ts {network_id} {ts_id} {pid:04x}"),
        Location::Mpeg2TsIpv6 { port, pid } => format!("mpeg2_ts_ipv6 {port} {pid:04x}"),
        Location::Url(url) => format!("url {}", hex(url)),
    }
}

fn mpu(m: &MpuExtended) -> String {
    let units = list(m.access_units.iter().map(|(d, p)| format!("{d}/{}", maybe(*p))));
    format!("[{} {} {} {units}]", m.mpu_sequence_number, m.leap_indicator, m.decoding_time_offset)
}

fn descriptor(d: &Descriptor) -> String {
    match d {
        Descriptor::MpuTimestamp(l) => {
            format!("mpu_timestamp {}", list(l.iter().map(|t| format!("{}:{:016x}", t.mpu_sequence_number, t.presentation_time))))
        }
        Descriptor::ExtendedTimestamp(e) => format!(
            "extended_timestamp timescale {} default_pts_offset {} mpus {}",
            maybe(e.timescale),
            maybe(e.default_pts_offset),
            list(e.mpus.iter().map(mpu))
        ),
        Descriptor::AccessControl { ca_system_id, location: l } => {
            format!("access_control {ca_system_id} location {}", maybe(l.as_ref().map(location)))
        }
        Descriptor::Scrambler { layer_type, system_id } => format!("scrambler {layer_type} {system_id}"),
        Descriptor::StreamIdentifier { component_tag } => format!("stream_identifier {component_tag}"),
        Descriptor::Service { service_type, provider, name } => {
            format!("service {service_type} provider {} name {}", hex(provider), hex(name))
        }
        Descriptor::ServiceList(l) => format!("service_list {}", list(l.iter().map(|(i, t)| format!("{i}:{t}")))),
        Descriptor::ShortEvent { language, name, text } => {
            format!("short_event {} name {} text {}", hex(language), hex(name), hex(text))
        }
        Descriptor::Content(l) => format!("content {}", list(l.iter().map(|(a, b, u)| format!("{a}:{b}:{u}")))),
        Descriptor::Hevc { profile_idc, tier, level_idc } => format!("hevc {profile_idc} {} {level_idc}", u8::from(*tier)),
        Descriptor::BroadcasterName(n) => format!("broadcaster_name {}", hex(n)),
        Descriptor::Other(r) => format!("other 0x{:04x} {}", r.tag, hex(&r.body)),
    }
}

pub fn descriptors(pad: &str, l: &[Descriptor]) -> String {
    l.iter().map(|d| format!("\n{pad}descriptor {}", descriptor(d))).collect()
}

fn header(h: &SectionHeader) -> String {
    format!(
        "header 0x{:02x} {} {} last_section_number {} version {} current {}",
        h.table_id,
        h.extension,
        h.section_number,
        h.last_section_number,
        h.version,
        u8::from(h.current)
    )
}

fn asset(a: &Asset) -> String {
    let head = format!(
        "\n  asset identifier_type {} scheme {} id {} type {} clock_relation {} packet_id {} component_tag {}",
        a.identifier_type,
        a.asset_id_scheme,
        hex(&a.asset_id),
        hex(&a.asset_type),
        u8::from(a.clock_relation),
        maybe(a.packet_id()),
        maybe(a.component_tag())
    );
    let locations: String = a.locations.iter().map(|l| format!("\n    location {}", location(l))).collect();
    head + &locations + &descriptors("    ", &a.descriptors)
}

pub fn mpt(t: &Mpt) -> String {
    let head = format!(
        "breaks {} table_id 0x{:02x} version {} mode {} package_id {} service_id {}",
        t.breaks,
        t.table_id,
        t.version,
        t.mode,
        hex(&t.package_id),
        maybe(t.service_id)
    );
    head + &descriptors("  ", &t.descriptors) + &t.assets.iter().map(asset).collect::<String>()
}

pub fn plt(t: &Plt) -> String {
    let packages = t.packages.iter().map(|p| format!("\n  package {} location {}", hex(&p.package_id), location(&p.location)));
    let deliveries =
        t.ip_deliveries.iter().map(|d| format!("\n  ip_delivery {} location_type {}", d.transport_file_id, d.location_type));
    format!("version {}", t.version) + &packages.chain(deliveries).collect::<String>()
}

pub fn eit(t: &Eit) -> String {
    let events = t.events.iter().map(|e| {
        format!(
            "\n  event {} start {:010x} duration {:06x} running_status {} free_ca {} short_event {}{}",
            e.event_id,
            e.start,
            e.duration,
            e.running_status,
            u8::from(e.free_ca),
            maybe(e.short_event().map(|(name, text)| format!("{} {}", hex(name), hex(text)))),
            descriptors("    ", &e.descriptors)
        )
    });
    let head = format!(
        "breaks {} {} tlv_stream_id {} original_network_id {} segment_last_section_number {} last_table_id {}",
        t.breaks,
        header(&t.header),
        t.tlv_stream_id,
        t.original_network_id,
        t.segment_last_section_number,
        t.last_table_id
    );
    head + &events.collect::<String>()
}

pub fn sdt(t: &Sdt) -> String {
    let services = t.services.iter().map(|s| {
        format!(
            "\n  service {} eit_user_defined_flags {} eit_schedule {} eit_present_following {} running_status {} free_ca {} service {}{}",
            s.service_id,
            s.eit_user_defined_flags,
            u8::from(s.eit_schedule),
            u8::from(s.eit_present_following),
            s.running_status,
            u8::from(s.free_ca),
            maybe(s.service().map(|(kind, provider, name)| format!("{kind} {} {}", hex(provider), hex(name)))),
            descriptors("    ", &s.descriptors)
        )
    });
    format!("breaks {} {} original_network_id {}", t.breaks, header(&t.header), t.original_network_id)
        + &services.collect::<String>()
}

pub fn bit(t: &Bit) -> String {
    let broadcasters =
        t.broadcasters.iter().map(|b| format!("\n  broadcaster {}{}", b.broadcaster_id, descriptors("    ", &b.descriptors)));
    let propriety = u8::from(t.broadcast_view_propriety);
    format!("breaks {} {} broadcast_view_propriety {propriety}", t.breaks, header(&t.header))
        + &descriptors("  ", &t.descriptors)
        + &broadcasters.collect::<String>()
}

fn tlv_descriptors(pad: &str, l: &[TlvDescriptor]) -> String {
    let said = |d: &TlvDescriptor| match d.tag {
        0x40 => format!(" network_name {}", maybe(d.network_name().map(hex))),
        0x41 => {
            let services = d.service_list().unwrap_or_default();
            format!(" service_list {}", list(services.iter().map(|(i, t)| format!("{i}:{t}"))))
        }
        0x43 => format!(" frequency_khz {}", maybe(d.satellite_frequency_khz())),
        _ => String::new(),
    };
    l.iter().map(|d| format!("\n{pad}descriptor 0x{:02x} {}{}", d.tag, hex(&d.body), said(d))).collect()
}

pub fn nit(t: &Nit) -> String {
    let streams = t.streams.iter().map(|s| {
        let descriptors = tlv_descriptors("    ", &s.descriptors);
        format!("\n  stream {} original_network_id {}{descriptors}", s.tlv_stream_id, s.original_network_id)
    });
    header(&t.header) + &tlv_descriptors("  ", &t.descriptors) + &streams.collect::<String>()
}

fn address(a: IpAddr) -> String {
    match a {
        IpAddr::V4(a) => hex(&a.octets()),
        IpAddr::V6(a) => hex(&a.octets()),
    }
}

pub fn amt(t: &Amt) -> String {
    let services = t.services.iter().map(|s| {
        let (src, dst) = (address(s.src.0), address(s.dst.0));
        format!("\n  service {} src {src} mask {} dst {dst} mask {}", s.service_id, s.src.1, s.dst.1)
    });
    header(&t.header) + &services.collect::<String>()
}

pub fn tot(t: &Tot) -> String {
    format!("breaks {} jst {:010x}", t.breaks, t.jst) + &descriptors("  ", &t.descriptors)
}
