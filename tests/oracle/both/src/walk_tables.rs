//! Kept tables by the library's walks over their bytes, as the Rust's own values, and each held against the one that the Rust keeps.
use crate::calls::{self, Numbers, Said};
use crate::differ::{differ, same};
use crate::walk_descriptors::{all, descriptors, flag, ipv4, ipv6, location, maybe, must, narrow, part, tlv_descriptors};
use isdb_mmt::table::*;
use isdb_si::time::{BcdDuration, MjdTime};

/// The first elements of a walk that does not say its own end.
fn first<T>(mut at: usize, count: u64, n: usize, walk: impl Fn(usize) -> Said, each: impl Fn(&Numbers) -> T) -> (Vec<T>, usize) {
    let mut found = Vec::new();
    for _ in 0..count {
        let v = must("a walk", walk(at));
        found.push(each(&v));
        at = v[n - 1] as usize;
    }
    (found, at)
}

fn counted(what: &str, found: usize, said: u64) {
    same(|| format!("how many {what}, walked and said"), &(found as u64), &said);
}

fn locations(t: &[u8], mut at: usize, count: u64) -> Vec<Location> {
    let mut found = Vec::new();
    for _ in 0..count {
        let (l, size) = location(t, at).unwrap_or_else(|code| differ(format!("a location at {at}: code {code}")));
        found.push(l);
        at += size;
    }
    found
}

/// An asset, of `isdb_asset_at` or, without the last numbers, of `isdb_asset_of`.
pub fn asset(t: &[u8], v: &[u64]) -> Asset {
    Asset {
        identifier_type: narrow(v[0]),
        asset_id_scheme: narrow(v[1]),
        asset_id: part(t, v[2], v[3]).to_vec(),
        asset_type: narrow::<u32>(v[4]).to_be_bytes(),
        clock_relation: flag(v[5]),
        locations: locations(t, v[7] as usize, v[6]),
        descriptors: descriptors(part(t, v[8], v[9])),
    }
}

pub fn mpt(t: &[u8]) -> Mpt {
    let v = must("isdb_mpt_parse", calls::mpt_parse(t));
    let one = |v: &Numbers| {
        let a = asset(t, v);
        same(|| format!("the packet id of {a:?}"), &maybe(v[10], v[11]), &a.packet_id());
        a
    };
    let table = Mpt {
        table_id: narrow(v[0]),
        version: narrow(v[1]),
        mode: narrow(v[2]),
        package_id: part(t, v[3], v[4]).to_vec(),
        descriptors: descriptors(part(t, v[5], v[6])),
        assets: first(v[8] as usize, v[7], 13, |at| calls::asset_at(t, at), one).0,
    };
    same(|| "an MPT's service id".into(), &maybe(v[9], v[10]), &table.service_id());
    table
}

pub fn plt(t: &[u8]) -> Plt {
    let v = must("isdb_plt_parse", calls::plt_parse(t));
    let package = |p: &Numbers| {
        let there = location(t, p[2] as usize).unwrap_or_else(|code| differ(format!("a package's location: code {code}")));
        (part(t, p[0], p[1]).to_vec(), there.0)
    };
    Plt {
        version: narrow(v[0]),
        packages: first(5, v[1], 4, |at| calls::package_at(t, at), package).0,
        ip_deliveries: first(v[3] as usize, v[2], 3, |at| calls::delivery_at(t, at), |d| (narrow(d[0]), narrow(d[1]))).0,
    }
}

/// A section's header and body.
fn header<'a>(section: &'a [u8], v: &Numbers) -> (SectionHeader, &'a [u8]) {
    let h = SectionHeader {
        table_id: narrow(v[0]),
        extension: narrow(v[1]),
        version: narrow(v[2]),
        current: flag(v[3]),
        section_number: narrow(v[4]),
        last_section_number: narrow(v[5]),
    };
    (h, part(section, v[6], v[7]))
}

pub fn eit(section: &[u8]) -> Eit {
    let v = must("isdb_eit_parse", calls::eit_parse(section));
    let (header, body) = header(section, &v);
    let event = |e: &Numbers| Event {
        event_id: narrow(e[0]),
        start: MjdTime(e[1]),
        duration: BcdDuration(narrow(e[2])),
        running_status: narrow(e[3]),
        free_ca: flag(e[4]),
        descriptors: descriptors(part(body, e[5], e[6])),
    };
    let events = all(6, 8, |at| calls::event_at(body, at), event);
    counted("events", events.len(), v[12]);
    Eit {
        header,
        tlv_stream_id: narrow(v[8]),
        original_network_id: narrow(v[9]),
        segment_last_section_number: narrow(v[10]),
        last_table_id: narrow(v[11]),
        events,
    }
}

pub fn sdt(section: &[u8]) -> Sdt {
    let v = must("isdb_sdt_parse", calls::sdt_parse(section));
    let (header, body) = header(section, &v);
    let service = |s: &Numbers| SdtService {
        service_id: narrow(s[0]),
        eit_user_defined_flags: narrow(s[1]),
        eit_schedule: flag(s[2]),
        eit_present_following: flag(s[3]),
        running_status: narrow(s[4]),
        free_ca: flag(s[5]),
        descriptors: descriptors(part(body, s[6], s[7])),
    };
    let services = all(3, 9, |at| calls::service_at(body, at), service);
    counted("services", services.len(), v[9]);
    Sdt { header, original_network_id: narrow(v[8]), services }
}

pub fn bit(section: &[u8]) -> Bit {
    let v = must("isdb_bit_parse", calls::bit_parse(section));
    let (header, body) = header(section, &v);
    let one = |b: &Numbers| (narrow(b[0]), descriptors(part(body, b[1], b[2])));
    let broadcasters = all((v[9] + v[10]) as usize, 4, |at| calls::broadcaster_at(body, at), one);
    counted("broadcasters", broadcasters.len(), v[11]);
    Bit { header, broadcast_view_propriety: flag(v[8]), descriptors: descriptors(part(body, v[9], v[10])), broadcasters }
}

pub fn nit(section: &[u8]) -> Nit {
    let v = must("isdb_nit_parse", calls::nit_parse(section));
    let (header, body) = header(section, &v);
    let streams = part(body, v[10], v[11]);
    let one = |s: &Numbers| NitStream {
        tlv_stream_id: narrow(s[0]),
        original_network_id: narrow(s[1]),
        descriptors: tlv_descriptors(part(streams, s[2], s[3])),
    };
    let found = all(0, 5, |at| calls::stream_at(streams, at), one);
    counted("streams", found.len(), v[12]);
    Nit { header, descriptors: tlv_descriptors(part(body, v[8], v[9])), streams: found }
}

pub fn amt(section: &[u8]) -> Amt {
    let v = must("isdb_amt_parse", calls::amt_parse(section));
    let (header, body) = header(section, &v);
    let address = |six: u64, high: u64, low: u64| if flag(six) { ipv6(high, low).to_vec() } else { ipv4(high, low).to_vec() };
    let one = |s: &Numbers| AmtService {
        service_id: narrow(s[0]),
        src: (address(s[1], s[2], s[3]), narrow(s[4])),
        dst: (address(s[1], s[5], s[6]), narrow(s[7])),
    };
    Amt { header, services: first(2, v[8], 9, |at| calls::flow_at(body, at), one).0 }
}

pub fn tot(section: &[u8]) -> Tot {
    let v = must("isdb_tot_parse", calls::tot_parse(section));
    Tot { jst: MjdTime(v[0]), descriptors: descriptors(part(section, v[1], v[2])) }
}

/// The number of loops that break in the Rust's reading of some bytes, and what the library said of the same.
pub fn same_breaks<T>(what: &str, said: Said, i: usize, parse: impl FnOnce() -> T) {
    let before = isdb_mmt::desc::split_errors();
    parse();
    let breaks = isdb_mmt::desc::split_errors() - before;
    same(|| format!("{what}: broken loops"), &must(what, said)[i], &breaks);
}
