//! Tables, loops and locations apart from any session, a third of the tables broken: the code of each, and its fields where it can be read.
use crate::calls::{self, MALFORMED, Said};
use crate::covered::Covered;
use crate::differ::same;
use crate::make::Maker;
use crate::walk_descriptors::{descriptors, location};
use crate::walk_tables as walk;
use isdb_mmt::desc;
use isdb_mmt::table::*;
use std::fmt::Debug;

/// A table by its call and by the Rust's parser: the same code, and the same fields.
fn one<T: PartialEq + Debug>(name: &str, b: &[u8], said: Said, walked: fn(&[u8]) -> T, rust: Result<T, u8>) -> bool {
    let code = rust.as_ref().err().copied().unwrap_or(0);
    same(|| format!("the code of {name} {b:02x?}"), &said.err().unwrap_or(0), &code);
    if rust.is_ok() {
        same(|| format!("the fields of {name} {b:02x?}"), &Ok(walked(b)), &rust);
    }
    rust.is_ok()
}

fn section<T>(r: Result<T, SectionError>) -> Result<T, u8> {
    r.map_err(|e| match e {
        SectionError::Truncated => 23,
        SectionError::Crc => 24,
        _ => MALFORMED,
    })
}

fn a_section(m: &mut Maker, id: u8) -> bool {
    let mut b = m.section(id);
    if m.r.once_in(6) {
        m.damage(&mut b);
    }
    match id {
        0x8B => one("isdb_eit_parse", &b, calls::eit_parse(&b), walk::eit, section(Eit::parse(&b))),
        0x9F => one("isdb_sdt_parse", &b, calls::sdt_parse(&b), walk::sdt, section(Sdt::parse(&b))),
        0x9D => one("isdb_bit_parse", &b, calls::bit_parse(&b), walk::bit, section(Bit::parse(&b))),
        0x40 => one("isdb_nit_parse", &b, calls::nit_parse(&b), walk::nit, section(Nit::parse(&b))),
        _ => one("isdb_amt_parse", &b, calls::amt_parse(&b), walk::amt, section(Amt::parse(&b))),
    }
}

fn a_table(m: &mut Maker) -> bool {
    let kind = m.r.below(3);
    let mut b = match kind {
        0 => m.mpt(),
        1 => m.plt(),
        _ => m.tot(),
    };
    if m.r.once_in(4) {
        m.damage(&mut b);
    }
    match kind {
        0 => one("isdb_mpt_parse", &b, calls::mpt_parse(&b), walk::mpt, Mpt::parse(&b).ok_or(MALFORMED)),
        1 => one("isdb_plt_parse", &b, calls::plt_parse(&b), walk::plt, Plt::parse(&b).ok_or(MALFORMED)),
        _ => one("isdb_tot_parse", &b, calls::tot_parse(&b), walk::tot, section(Tot::parse(&b))),
    }
}

/// A loop of descriptors, and a location at some place of it.
fn a_loop(m: &mut Maker) {
    m.begin(2);
    let mut b = m.descriptors();
    b.extend(m.location());
    if m.r.once_in(2) {
        m.damage(&mut b);
    }
    let rust: Vec<_> = desc::split(&b).0.iter().map(desc::Descriptor::decode).collect();
    same(|| format!("the descriptors of {b:02x?}"), &descriptors(&b), &rust);
    let at = m.r.below(b.len() + 3);
    let there = b.get(at..).and_then(Location::parse).ok_or(MALFORMED);
    same(|| format!("isdb_location_at {at} of {b:02x?}"), &location(&b, at), &there);
}

/// Some of each.
pub fn compare(m: &mut Maker, covered: &mut Covered) {
    for id in [0x8B, 0x9F, 0x9D, 0x40, 0xFE] {
        covered.apart += u64::from(a_section(m, id));
    }
    for _ in 0..4 {
        covered.apart += u64::from(a_table(m));
        a_loop(m);
    }
}
