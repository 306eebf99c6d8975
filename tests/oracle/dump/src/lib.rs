//! Tables as text, a fact a line, without a line feed at the end.
use isdb_mmt::desc::Descriptor;
use isdb_mmt::table::*;
use std::fmt::Write;

pub fn hex(b: &[u8]) -> String {
    if b.is_empty() {
        return "-".into();
    }
    b.iter().map(|x| format!("{x:02x}")).collect()
}

pub fn flag(b: bool) -> u8 {
    u8::from(b)
}

pub fn maybe<T: std::fmt::Display>(x: Option<T>) -> String {
    x.map_or("none".into(), |v| v.to_string())
}

fn list(items: Vec<String>) -> String {
    if items.is_empty() { "-".into() } else { items.join(",") }
}

pub fn location(l: &Location) -> String {
    match l {
        Location::SameFlow(id) => format!("same_flow {id}"),
        Location::Ipv4 { src, dst, port, packet_id } => format!("ipv4 {} {} {port} {packet_id}", hex(src), hex(dst)),
        Location::Ipv6 { src, dst, port, packet_id } => format!("ipv6 {} {} {port} {packet_id}", hex(src), hex(dst)),
        Location::Mpeg2Ts { network_id, ts_id, pid } => format!("mpeg2_ts {network_id} {ts_id} {:04x}", pid.0),
        Location::Mpeg2TsIpv6 { port, pid } => format!("mpeg2_ts_ipv6 {port} {:04x}", pid.0),
        Location::Url(u) => format!("url {}", hex(u.as_bytes())),
    }
}

fn descriptor(d: &Descriptor) -> String {
    match d {
        Descriptor::MpuTimestamp(l) => format!(
            "mpu_timestamp {}",
            list(l.iter().map(|t| format!("{}:{:016x}", t.mpu_sequence_number, t.presentation_time)).collect())
        ),
        Descriptor::ExtendedTimestamp(e) => format!(
            "extended_timestamp timescale {} default_pts_offset {} mpus {}",
            maybe(e.timescale),
            maybe(e.default_pts_offset),
            list(
                e.mpus
                    .iter()
                    .map(|m| format!(
                        "[{} {} {} {}]",
                        m.mpu_sequence_number,
                        m.leap_indicator,
                        m.decoding_time_offset,
                        list(m.access_units.iter().map(|(d, p)| format!("{d}/{}", maybe(*p))).collect())
                    ))
                    .collect()
            )
        ),
        Descriptor::AccessControl { ca_system_id, location: l } => {
            format!("access_control {ca_system_id} location {}", l.as_ref().map_or("none".into(), location))
        }
        Descriptor::Scrambler { layer_type, system_id } => format!("scrambler {layer_type} {system_id}"),
        Descriptor::StreamIdentifier { component_tag } => format!("stream_identifier {component_tag}"),
        Descriptor::Service { service_type, provider, name } => {
            format!("service {service_type} provider {} name {}", hex(provider.as_bytes()), hex(name.as_bytes()))
        }
        Descriptor::ServiceList(l) => format!("service_list {}", list(l.iter().map(|(i, t)| format!("{i}:{t}")).collect())),
        Descriptor::ShortEvent { language, name, text } => {
            format!("short_event {} name {} text {}", hex(language), hex(name.as_bytes()), hex(text.as_bytes()))
        }
        Descriptor::Content(l) => format!("content {}", list(l.iter().map(|(a, b, u)| format!("{a}:{b}:{u}")).collect())),
        Descriptor::Hevc { profile_idc, tier, level_idc } => format!("hevc {profile_idc} {} {level_idc}", flag(*tier)),
        Descriptor::BroadcasterName(n) => format!("broadcaster_name {}", hex(n.as_bytes())),
        Descriptor::Other(r) => format!("other 0x{:04x} {}", r.tag, hex(&r.body)),
    }
}

pub fn descriptors(s: &mut String, pad: &str, l: &[Descriptor]) {
    for d in l {
        write!(s, "\n{pad}descriptor {}", descriptor(d)).unwrap();
    }
}

fn header(h: &SectionHeader) -> String {
    format!(
        "header 0x{:02x} {} {} last_section_number {} version {} current {}",
        h.table_id,
        h.extension,
        h.section_number,
        h.last_section_number,
        h.version,
        flag(h.current)
    )
}

pub fn mpt(t: &Mpt) -> String {
    let mut s = format!(
        "table_id 0x{:02x} version {} mode {} package_id {} service_id {}",
        t.table_id,
        t.version,
        t.mode,
        hex(&t.package_id),
        maybe(t.service_id())
    );
    descriptors(&mut s, "  ", &t.descriptors);
    for a in &t.assets {
        write!(
            s,
            "\n  asset identifier_type {} scheme {} id {} type {} clock_relation {} packet_id {} component_tag {}",
            a.identifier_type,
            a.asset_id_scheme,
            hex(&a.asset_id),
            hex(&a.asset_type),
            flag(a.clock_relation),
            maybe(a.packet_id()),
            maybe(a.component_tag())
        )
        .unwrap();
        for l in &a.locations {
            write!(s, "\n    location {}", location(l)).unwrap();
        }
        descriptors(&mut s, "    ", &a.descriptors);
    }
    s
}

pub fn plt(t: &Plt) -> String {
    let mut s = format!("version {}", t.version);
    for (id, l) in &t.packages {
        write!(s, "\n  package {} location {}", hex(id), location(l)).unwrap();
    }
    for (id, lt) in &t.ip_deliveries {
        write!(s, "\n  ip_delivery {id} location_type {lt}").unwrap();
    }
    s
}

/// With more of each event at the end of its line.
pub fn eit(t: &Eit, more: impl Fn(&Event) -> String) -> String {
    let mut s = format!(
        "{} tlv_stream_id {} original_network_id {} segment_last_section_number {} last_table_id {}",
        header(&t.header),
        t.tlv_stream_id,
        t.original_network_id,
        t.segment_last_section_number,
        t.last_table_id
    );
    for e in &t.events {
        write!(
            s,
            "\n  event {} start {:010x} duration {:06x} running_status {} free_ca {}{}",
            e.event_id,
            e.start.0,
            e.duration.0,
            e.running_status,
            flag(e.free_ca),
            more(e)
        )
        .unwrap();
        descriptors(&mut s, "    ", &e.descriptors);
    }
    s
}

/// With more of each service at the end of its line.
pub fn sdt(t: &Sdt, more: impl Fn(&SdtService) -> String) -> String {
    let mut s = format!("{} original_network_id {}", header(&t.header), t.original_network_id);
    for e in &t.services {
        write!(
            s,
            "\n  service {} eit_user_defined_flags {} eit_schedule {} eit_present_following {} running_status {} free_ca {}{}",
            e.service_id,
            e.eit_user_defined_flags,
            flag(e.eit_schedule),
            flag(e.eit_present_following),
            e.running_status,
            flag(e.free_ca),
            more(e)
        )
        .unwrap();
        descriptors(&mut s, "    ", &e.descriptors);
    }
    s
}

pub fn tot(t: &Tot) -> String {
    let mut s = format!("jst {:010x}", t.jst.0);
    descriptors(&mut s, "  ", &t.descriptors);
    s
}

pub fn bit(t: &Bit) -> String {
    let mut s = format!("{} broadcast_view_propriety {}", header(&t.header), flag(t.broadcast_view_propriety));
    descriptors(&mut s, "  ", &t.descriptors);
    for (id, l) in &t.broadcasters {
        write!(s, "\n  broadcaster {id}").unwrap();
        descriptors(&mut s, "    ", l);
    }
    s
}

fn tlv_descriptors(s: &mut String, pad: &str, l: &[TlvDescriptor]) {
    for d in l {
        write!(s, "\n{pad}descriptor 0x{:02x} {}", d.tag, hex(&d.body)).unwrap();
        if let Some(l) = d.service_list() {
            write!(s, " service_list {}", list(l.iter().map(|(i, t)| format!("{i}:{t}")).collect())).unwrap();
        }
        if let Some(n) = d.network_name() {
            write!(s, " network_name {}", hex(n.as_bytes())).unwrap();
        }
        if d.tag == 0x43 {
            write!(s, " frequency_khz {}", maybe(d.satellite_frequency_khz())).unwrap();
        }
    }
}

pub fn nit(t: &Nit) -> String {
    let mut s = header(&t.header);
    tlv_descriptors(&mut s, "  ", &t.descriptors);
    for e in &t.streams {
        write!(s, "\n  stream {} original_network_id {}", e.tlv_stream_id, e.original_network_id).unwrap();
        tlv_descriptors(&mut s, "    ", &e.descriptors);
    }
    s
}

pub fn amt(t: &Amt) -> String {
    let mut s = header(&t.header);
    for e in &t.services {
        write!(s, "\n  service {} src {} mask {} dst {} mask {}", e.service_id, hex(&e.src.0), e.src.1, hex(&e.dst.0), e.dst.1).unwrap();
    }
    s
}
