//! The cases, as `crates/cases` reads and writes them, answered by the Rust.
use dump::hex;
use isdb_mmt::{desc, message, mpu};
use isdb_mmt::table::{Amt, Bit, Eit, Event, Location, Mpt, Nit, Plt, Sdt, SdtService, SectionError, Tot};
use isdb_tlv::{ip, mmtp, si, tlv};
use std::fmt::Write;
use std::io::Read;

/// The bytes of some digits, or what is wrong with them.
fn bytes(text: &str) -> Result<Vec<u8>, String> {
    if let Some(i) = text.bytes().position(|x| !x.is_ascii_hexdigit()) {
        return Err(format!(" error: no hexadecimal digit, at {i}"));
    }
    if text.len() % 2 != 0 {
        return Err(" error: an odd number of digits".into());
    }
    if text.len() > 131_072 {
        return Err(" error: more than 65536 bytes".into());
    }
    Ok((0..text.len() / 2).map(|i| u8::from_str_radix(&text[2 * i..2 * i + 2], 16).unwrap()).collect())
}

fn datagram(r: Result<ip::Datagram, ip::IpError>) -> String {
    let d = match r {
        Ok(d) => d,
        Err(ip::IpError::Truncated) => return " truncated".into(),
        Err(ip::IpError::NotUdp(p)) => return format!(" not_udp {p}"),
        Err(ip::IpError::HeaderType(t)) => return format!(" header_type {t}"),
        Err(ip::IpError::Version(v)) => return format!(" version {v}"),
        Err(e) => panic!("{e:?}"),
    };
    let mut s = String::new();
    match d.context {
        None => s += " context none",
        Some(c) => write!(s, " context {c}").unwrap(),
    }
    match d.flow {
        None => s += " flow none",
        Some(f) => write!(s, " src {} dst {} sport {} dport {}", hex(&f.src), hex(&f.dst), f.sport, f.dport).unwrap(),
    }
    s + " payload " + &hex(&d.payload)
}

fn packet_type(b: u8) -> String {
    match tlv::PacketType::from_byte(b) {
        tlv::PacketType::Ipv4 => " ipv4".into(),
        tlv::PacketType::Ipv6 => " ipv6".into(),
        tlv::PacketType::Compressed => " compressed".into(),
        tlv::PacketType::Control => " control".into(),
        tlv::PacketType::Null => " null".into(),
        tlv::PacketType::Other(v) => format!(" other {v}"),
    }
}

fn packet(b: &[u8]) -> String {
    let Some((h, payload)) = mmtp::parse(b) else {
        return " none".into();
    };
    let control = h.scramble_control.map_or("none".into(), |c| c.to_string());
    format!(
        " fec {} rap {} type {} id {} sequence {} scrambled {} control {control} payload {}",
        h.fec_type.code(),
        u8::from(h.rap),
        h.payload_type.code(),
        h.packet_id,
        h.sequence,
        u8::from(h.scramble_info),
        hex(payload)
    )
}

fn messages(b: &[u8]) -> String {
    let Some(l) = mmtp::messages(b) else {
        return " refused".into();
    };
    let mut s = format!(" messages {}", l.len());
    for m in l {
        write!(s, " id {:04x} tables", m.id).unwrap();
        for t in m.tables {
            write!(s, " {t:02x}").unwrap();
        }
    }
    s
}

fn sections(b: &[u8]) -> String {
    let l = si::sections(b);
    let mut s = String::from(if l.is_empty() { " none" } else { "" });
    for x in l {
        write!(s, " at {} table {:02x} extension {} version {} bytes {}", x.offset, x.table_id, x.extension, x.version, hex(&x.bytes)).unwrap();
    }
    s
}

fn units(b: &[u8]) -> String {
    let Some(h) = mpu::parse_header(b) else {
        return " none".into();
    };
    let mut s = format!(
        " type {} timed {} fragmentation {} aggregated {} counter {} mpu {}",
        h.fragment_type.code(),
        u8::from(h.timed),
        h.fragmentation.code(),
        u8::from(h.aggregated),
        h.fragment_counter,
        h.mpu_sequence_number
    );
    let Some((_, l)) = mpu::parse(b) else {
        return s + " malformed";
    };
    write!(s, " units {}", l.len()).unwrap();
    for u in l {
        s += "\n  unit";
        if let Some(m) = u.mfu {
            write!(s, " movie_fragment {} sample {} offset {}", m.movie_fragment_sequence_number, m.sample_number, m.offset).unwrap();
            write!(s, " priority {} dependency {}", m.priority, m.dependency_counter).unwrap();
        }
        if let Some(i) = u.item_id {
            write!(s, " item {i}").unwrap();
        }
        s = s + " data " + &hex(u.data);
    }
    s
}

fn control(b: &[u8]) -> String {
    let mut m = message::Messages::new();
    let mut tables = Vec::new();
    m.push(1, b, false, &mut tables);
    if b.len() < 2 {
        return format!(" malformed {}", m.errors.malformed);
    }
    match b[0] >> 6 {
        1 => return " first".into(),
        2 => return " middle".into(),
        3 => return " last".into(),
        _ => {}
    }
    let mut s = String::new();
    for t in tables {
        s = s + "\n  table " + &hex(&t.bytes);
    }
    s + &format!("\n  malformed {}", m.errors.malformed)
}

/// Two packets of one id, with these numbers and no payload.
fn lost(b: &[u8]) -> String {
    let mut r = mpu::Reassembler::new();
    for n in [&b[0..4], &b[4..8]] {
        let mut packet = vec![0u8, 0, 0, 1, 0, 0, 0, 0];
        packet.extend_from_slice(n);
        let (h, payload) = mmtp::parse(&packet).unwrap();
        r.push(&h, payload, &mut Vec::new());
    }
    format!(" lost {}", r.stats().next().unwrap().1.packets_lost)
}

fn descriptors(b: &[u8]) -> String {
    let before = desc::split_errors();
    let l = desc::decode_all(b);
    let mut s = format!(" descriptors {} broken {}", l.len(), desc::split_errors() - before);
    dump::descriptors(&mut s, "  ", &l);
    s
}

fn section(r: Result<String, SectionError>) -> String {
    r.unwrap_or_else(|e| match e {
        SectionError::Truncated => "truncated".into(),
        SectionError::Crc => "crc".into(),
        _ => "malformed".into(),
    })
}

/// A reading, behind the count of the descriptor loops that broke on the way.
fn counted(read: impl FnOnce() -> String) -> String {
    let before = desc::split_errors();
    let said = read();
    format!(" breaks {} {said}", desc::split_errors() - before)
}

fn short_event(e: &Event) -> String {
    " short_event ".to_string() + &e.short_event().map_or("none".into(), |(n, t)| format!("{} {}", hex(n.as_bytes()), hex(t.as_bytes())))
}

fn service(e: &SdtService) -> String {
    let said = |(t, p, n): (u8, &str, &str)| format!("{t} {} {}", hex(p.as_bytes()), hex(n.as_bytes()));
    " service ".to_string() + &e.service().map_or("none".into(), said)
}

fn main() {
    let stored = std::fs::read_to_string(std::env::args().nth(1).unwrap()).unwrap();
    let mut input = String::new();
    std::io::stdin().read_to_string(&mut input).unwrap();
    for line in input.lines() {
        if line.starts_with('#') {
            println!("{line}");
            continue;
        }
        let (word, text) = line.split_once(' ').unwrap();
        let b = match bytes(text) {
            Ok(b) => b,
            Err(e) => {
                println!("{line} ->{e}");
                continue;
            }
        };
        let found = match word {
            "crc" => format!(" crc {:08x}", isdb_ts::crc::crc32(&b)),
            "tlv" => packet_type(b[0]),
            "ipv4" => datagram(ip::ipv4(&b)),
            "ipv6" => datagram(ip::ipv6(&b)),
            "compressed" => datagram(ip::compressed(&b)),
            "mmtp" => packet(&b),
            "messages" => messages(&b),
            "sections" => sections(&b),
            "units" => units(&b),
            "control" => control(&b),
            "lost" => lost(&b),
            "location" => Location::parse(&b).map_or(" none".into(), |(l, n)| format!(" took {n} {}", dump::location(&l))),
            "descriptors" => descriptors(&b),
            "mpt" => counted(|| Mpt::parse(&b).map_or("none".into(), |t| dump::mpt(&t))),
            "plt" => format!(" {}", Plt::parse(&b).map_or("none".into(), |t| dump::plt(&t))),
            "eit" => counted(|| section(Eit::parse(&b).map(|t| dump::eit(&t, short_event)))),
            "sdt" => counted(|| section(Sdt::parse(&b).map(|t| dump::sdt(&t, service)))),
            "tot" => counted(|| section(Tot::parse(&b).map(|t| dump::tot(&t)))),
            "bit" => counted(|| section(Bit::parse(&b).map(|t| dump::bit(&t)))),
            "nit" => format!(" {}", section(Nit::parse(&b).map(|t| dump::nit(&t)))),
            "amt" => format!(" {}", section(Amt::parse(&b).map(|t| dump::amt(&t)))),
            "ntp" => {
                let x = desc::ntp_to_unix(u64::from_be_bytes(b[..8].try_into().unwrap()));
                format!(" unix_bits {:016x}", x.to_bits())
            }
            "wire" => {
                let kept = stored.lines().find(|l| l.starts_with(&format!("{line} ->")));
                println!("{}", kept.unwrap_or(line));
                continue;
            }
            _ => " no such reading".into(),
        };
        println!("{line} ->{found}");
    }
}
