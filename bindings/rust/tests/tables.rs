//! The cases of crates/cases, whose answers stand in its stdout: each table, descriptor loop and location is read and written again.
mod text;

use isdb::tables::{self, Amt, Bit, Descriptor, Eit, Location, Mpt, Nit, Plt, Sdt, SectionError, Tot};

/// The bytes of some hexadecimal digits, or none where they are not well formed.
fn bytes(digits: &str) -> Option<Vec<u8>> {
    (0..digits.len()).step_by(2).map(|i| u8::from_str_radix(digits.get(i..i + 2)?, 16).ok()).collect()
}

fn section<T>(read: Result<T, SectionError>, text: fn(&T) -> String) -> String {
    match read {
        Ok(t) => text(&t),
        Err(SectionError::Truncated) => "truncated".into(),
        Err(SectionError::Crc) => "crc".into(),
        Err(SectionError::Malformed) => "malformed".into(),
    }
}

/// What is read of a case, or none where it is not of a table.
fn said(kind: &str, b: &[u8]) -> Option<String> {
    Some(match kind {
        "crc" => format!("crc {:08x}", tables::crc32(b)),
        "location" => Location::parse(b).map_or("none".into(), |(l, n)| format!("took {n} {}", text::location(&l))),
        "descriptors" => text::descriptors("  ", &Descriptor::all(b)),
        "mpt" => Mpt::parse(b).map_or("none".into(), |t| text::mpt(&t)),
        "plt" => Plt::parse(b).map_or("none".into(), |t| text::plt(&t)),
        "eit" => section(Eit::parse(b), text::eit),
        "sdt" => section(Sdt::parse(b), text::sdt),
        "bit" => section(Bit::parse(b), text::bit),
        "nit" => section(Nit::parse(b), text::nit),
        "amt" => section(Amt::parse(b), text::amt),
        "tot" => section(Tot::parse(b), text::tot),
        "ntp" => format!("unix_bits {:016x}", tables::ntp_to_unix(u64::from_be_bytes(b.try_into().ok()?)).to_bits()),
        _ => return None,
    })
}

/// What the case's program wrote, without what is not handed out here: how many descriptors a loop has, and breaks of what is not read.
fn expected(kind: &str, answer: &str) -> String {
    let (first, more) = answer.split_once('\n').unwrap_or((answer, ""));
    let more = if more.is_empty() { String::new() } else { format!("\n{more}") };
    match (kind, first.rsplit(' ').next().unwrap()) {
        ("descriptors", _) => more,
        (_, code @ ("none" | "truncated" | "crc" | "malformed")) if !first.contains("table_id") => code.into(),
        _ => format!("{first}{more}"),
    }
}

#[test]
fn cases() {
    let written = std::fs::read_to_string(concat!(env!("CARGO_MANIFEST_DIR"), "/../../crates/cases/stdout")).unwrap();
    let mut read = 0;
    for case in written.replace("\n ", "\u{1} ").lines() {
        let case = case.replace('\u{1}', "\n");
        let Some((input, answer)) = case.split_once(" -> ") else { continue };
        let Some((kind, digits)) = input.split_once(' ') else { continue };
        if let Some(said) = bytes(digits).and_then(|b| said(kind, &b)) {
            assert_eq!(said, expected(kind, answer), "{input}");
            read += 1;
        }
    }
    assert!(read > 150, "only {read} cases were read");
}

/// With its last four bytes set so that the CRC over all is 0.
fn sealed(mut b: Vec<u8>) -> Vec<u8> {
    if let Some(n) = b.len().checked_sub(4) {
        let crc = tables::crc32(&b[..n]);
        b[n..].copy_from_slice(&crc.to_be_bytes());
    }
    b
}

/// No bytes make a reading panic: each case cut short, and with each byte changed.
#[test]
fn damaged_cases() {
    let cases = std::fs::read_to_string(concat!(env!("CARGO_MANIFEST_DIR"), "/../../crates/cases/stdin")).unwrap();
    for (kind, digits) in cases.lines().filter_map(|l| l.split_once(' ')).filter(|(_, d)| d.len() < 1000) {
        let Some(b) = bytes(digits) else { continue };
        for (i, x) in (0..b.len()).flat_map(|i| [0, 1, 0x7F, 0xFF].map(|x| (i, x))) {
            let mut changed = b.clone();
            changed[i] = x;
            said(kind, &b[..i]);
            said(kind, &changed);
            said(kind, &sealed(changed));
        }
    }
}
