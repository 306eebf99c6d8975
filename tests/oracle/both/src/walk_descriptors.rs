//! Descriptors and locations of a table's bytes by the library's walks, as the Rust's own values. A text is its bytes put through
//! `from_utf8_lossy`, which the Rust does on reading.
use crate::calls::{self, MALFORMED, NOTHING, Numbers, Said};
use crate::differ::differ;
use isdb_mmt::desc::{Descriptor, ExtendedTimestamp, MpuExtended, MpuTimestamp, Raw};
use isdb_mmt::table::{Location, TlvDescriptor};
use isdb_ts::Pid;

pub fn must(what: &str, said: Said) -> Numbers {
    said.unwrap_or_else(|code| differ(format!("{what}: code {code}")))
}

/// The bytes of a part.
pub fn part(b: &[u8], start: u64, length: u64) -> &[u8] {
    b.get(start as usize..(start + length) as usize).unwrap_or_else(|| differ(format!("a part {start} {length} of {} bytes", b.len())))
}

pub fn text(b: &[u8]) -> String {
    String::from_utf8_lossy(b).into_owned()
}

/// A number as the narrower one that the Rust has.
pub fn narrow<T: TryFrom<u64>>(x: u64) -> T {
    T::try_from(x).unwrap_or_else(|_| differ(format!("{x} is too large for its field")))
}

pub fn flag(x: u64) -> bool {
    if x > 1 { differ(format!("a flag is {x}")) } else { x == 1 }
}

pub fn maybe<T: TryFrom<u64>>(given: u64, x: u64) -> Option<T> {
    if !flag(given) && x != 0 {
        differ(format!("what is absent is {x}"));
    }
    flag(given).then(|| narrow(x))
}

/// Steps of a walk from a place up to its end; the last number that each says is the place of the next, which must be further on.
pub fn steps<T>(mut at: usize, n: usize, walk: impl Fn(usize) -> Said, each: impl Fn(&Numbers) -> T) -> (Vec<T>, u8) {
    let mut found = Vec::new();
    loop {
        match walk(at) {
            Err(code) => return (found, code),
            Ok(v) => {
                found.push(each(&v));
                if v[n - 1] as usize <= at {
                    differ(format!("a walk goes from {at} to {}", v[n - 1]));
                }
                at = v[n - 1] as usize;
            }
        }
    }
}

/// All steps of a walk that cannot break.
pub fn all<T>(at: usize, n: usize, walk: impl Fn(usize) -> Said, each: impl Fn(&Numbers) -> T) -> Vec<T> {
    let (found, code) = steps(at, n, walk, each);
    if code != NOTHING {
        differ(format!("a walk ends with code {code} after {} steps", found.len()));
    }
    found
}

pub fn ipv4(high: u64, low: u64) -> [u8; 4] {
    if high != 0 {
        differ(format!("an IPv4 address has the high half {high}"));
    }
    narrow::<u32>(low).to_be_bytes()
}

pub fn ipv6(high: u64, low: u64) -> [u8; 16] {
    (u128::from(high) << 64 | u128::from(low)).to_be_bytes()
}

/// The location at a place, and its size.
pub fn location(b: &[u8], at: usize) -> Result<(Location, usize), u8> {
    let v = calls::location_at(b, at)?;
    let [kind, sh, sl, dh, dl, port, id, network, ts, pid, url, url_length, size, ..] = v;
    let l = match kind {
        0 => Location::SameFlow(narrow(id)),
        1 => Location::Ipv4 { src: ipv4(sh, sl), dst: ipv4(dh, dl), port: narrow(port), packet_id: narrow(id) },
        2 => Location::Ipv6 { src: ipv6(sh, sl), dst: ipv6(dh, dl), port: narrow(port), packet_id: narrow(id) },
        3 => Location::Mpeg2Ts { network_id: narrow(network), ts_id: narrow(ts), pid: Pid(narrow(pid)) },
        4 => Location::Mpeg2TsIpv6 { port: narrow(port), pid: Pid(narrow(pid)) },
        5 => Location::Url(text(part(&b[at..], url, url_length))),
        _ => differ(format!("a location of type {kind}")),
    };
    Ok((l, size as usize))
}

fn extended(b: &[u8], v: &Numbers) -> ExtendedTimestamp {
    let [_, scaled, timescale, given, default, own, start, ..] = *v;
    let unit = |u: &Numbers| (narrow(u[0]), maybe(u[1], u[2]));
    let mpu = |m: &Numbers| {
        let units = part(b, m[4], m[5]);
        let walk = |at| calls::access_unit_at(units, given as u8, default as u16, own as u8, at);
        let access_units = all(0, 4, walk, unit);
        if access_units.len() as u64 != m[3] {
            differ(format!("{} access units, {} said", access_units.len(), m[3]));
        }
        MpuExtended { mpu_sequence_number: narrow(m[0]), leap_indicator: narrow(m[1]), decoding_time_offset: narrow(m[2]), access_units }
    };
    ExtendedTimestamp {
        timescale: maybe(scaled, timescale),
        default_pts_offset: maybe(given, default),
        mpus: all(start as usize, 7, |at| calls::mpu_at(b, own as u8, at), mpu),
    }
}

fn access_control(b: &[u8], v: &Numbers) -> Descriptor {
    let there = location(b, 2);
    if there.is_ok() != flag(v[2]) {
        differ(format!("an access control's location: {there:?}, said {}", v[2]));
    }
    Descriptor::AccessControl { ca_system_id: narrow(v[1]), location: there.ok().map(|l| l.0) }
}

fn descriptor(tag: u16, b: &[u8]) -> Descriptor {
    let v = must("isdb_decode", calls::decode(tag, b));
    let text_at = |i: usize| text(part(b, v[i], v[i + 1]));
    let timestamp = |t: &Numbers| MpuTimestamp { mpu_sequence_number: narrow(t[0]), presentation_time: t[1] };
    match v[0] {
        0 => Descriptor::Other(Raw { tag, body: b.to_vec() }),
        1 => Descriptor::MpuTimestamp(all(0, 3, |at| calls::timestamp_at(b, at), timestamp)),
        2 => Descriptor::ExtendedTimestamp(extended(b, &v)),
        3 => access_control(b, &v),
        4 => Descriptor::Scrambler { layer_type: narrow(v[1]), system_id: narrow(v[2]) },
        5 => Descriptor::StreamIdentifier { component_tag: narrow(v[1]) },
        6 => Descriptor::Service { service_type: narrow(v[1]), provider: text_at(2), name: text_at(4) },
        7 => Descriptor::ServiceList(listed_services(b)),
        8 => Descriptor::ShortEvent { language: [narrow(v[1]), narrow(v[2]), narrow(v[3])], name: text_at(4), text: text_at(6) },
        9 => Descriptor::Content(all(0, 4, |at| calls::genre_at(b, at), |g| (narrow(g[0]), narrow(g[1]), narrow(g[2])))),
        10 => Descriptor::Hevc { profile_idc: narrow(v[1]), tier: flag(v[2]), level_idc: narrow(v[3]) },
        11 => Descriptor::BroadcasterName(text_at(1)),
        kind => differ(format!("a descriptor of kind {kind}")),
    }
}

fn listed_services(b: &[u8]) -> Vec<(u16, u8)> {
    all(0, 3, |at| calls::listed_service_at(b, at), |s| (narrow(s[0]), narrow(s[1])))
}

/// The descriptors of a loop up to its end, or up to where it breaks.
pub fn descriptors(b: &[u8]) -> Vec<Descriptor> {
    let each = |v: &Numbers| descriptor(narrow(v[0]), part(b, v[1], v[2]));
    let (found, code) = steps(0, 4, |at| calls::descriptor_at(b, at), each);
    let broken = isdb_mmt::desc::split(b).1.is_some();
    if code != if broken { MALFORMED } else { NOTHING } {
        differ(format!("a loop ends with code {code}, in the Rust it is broken: {broken}: {b:02x?}"));
    }
    found
}

/// What the Rust says of a TLV-SI descriptor beside its body, by the walks.
fn tlv_parts(d: &TlvDescriptor) {
    let khz = calls::frequency_khz(d.tag, &d.body).ok().map(|v| v[0]);
    crate::differ::same(|| format!("the frequency in {d:02x?}"), &khz, &d.satellite_frequency_khz());
    if let Some(list) = d.service_list() {
        crate::differ::same(|| format!("the services of {d:02x?}"), &listed_services(&d.body), &list);
    }
}

/// TLV-SI descriptors of a loop.
pub fn tlv_descriptors(b: &[u8]) -> Vec<TlvDescriptor> {
    let each = |v: &Numbers| TlvDescriptor { tag: narrow(v[0]), body: part(b, v[1], v[2]).to_vec() };
    let found = all(0, 4, |at| calls::tlv_at(b, at), each);
    found.iter().for_each(tlv_parts);
    found
}
