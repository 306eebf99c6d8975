//! Kept tables: their bytes against the shadow's, every field against the Rust's, and the assets that packet ids carry.
use crate::calls::{self, Memory, NOTHING, Said};
use crate::differ::{differ, same};
use crate::seen::{keys, told};
use crate::shadow::Shadow;
use crate::walk_descriptors::maybe;
use crate::walk_tables::{self as walk, same_breaks};
use isdb_mmt::decoder::Decoder;
use isdb_mmt::table::{Asset, Bit, Eit, Mpt, Plt, Sdt, Tot};
use std::collections::{BTreeMap, BTreeSet};
use std::fmt::Debug;

/// The part of `tables` that a reading hands out.
fn bytes_of<'a>(what: &str, m: &'a Memory, said: Said) -> Option<&'a [u8]> {
    let v = told(what, said)?;
    let (start, length) = (v[0] as usize, v[1] as usize);
    Some(m.tables.get(start..start + length).unwrap_or_else(|| differ(format!("{what}: {start} {length}"))))
}

/// A table as its bytes and as its walked value; the number of tables compared.
fn one<T: PartialEq + Debug>(
    what: &str,
    (here, there): (Option<&[u8]>, Option<&Vec<u8>>),
    walked: impl Fn(&[u8]) -> T,
    rust: Option<&T>,
) -> u64 {
    same(|| format!("{what}: its bytes"), &here, &there.map(|b| &b[..]));
    let value = here.map(walked);
    same(|| format!("{what}: its fields"), &value.as_ref(), &rust);
    here.is_some().into()
}

type Key = (u8, u16, u8);

/// A kept section: its bytes, and its fields against the Rust's map of that sort.
fn section<T: PartialEq + Debug>(m: &Memory, s: &Shadow, key: u32, walked: impl Fn(&[u8]) -> T, of: &BTreeMap<Key, T>) -> u64 {
    let what = format!("section {key:08x}");
    let named = ((key >> 24) as u8, (key >> 8) as u16, key as u8);
    one(&what, (bytes_of(&what, m, m.section(key)), s.kept.get(&key).map(|k| &k.1)), walked, of.get(&named))
}

fn sections(m: &Memory, s: &Shadow, d: &Decoder) -> u64 {
    let found = keys(m, 0, u32::MAX);
    same(|| "keys in order".into(), &found, &s.kept.keys().copied().collect::<Vec<_>>());
    let rust = d.eits.len() + d.sdts.len() + d.bits.len() + d.nits.len() + d.amts.len();
    same(|| "how many sections are kept".into(), &found.len(), &rust);
    let one = |&key: &u32| match key >> 24 {
        0x9D => section(m, s, key, broken_bit, &d.bits),
        0x9F | 0xA0 => section(m, s, key, broken_sdt, &d.sdts),
        0x40 | 0x41 => section(m, s, key, walk::nit, &d.nits),
        0xFE => section(m, s, key, walk::amt, &d.amts),
        _ => section(m, s, key, broken_eit, &d.eits),
    };
    for sort in found.iter().map(|k| k >> 24).collect::<BTreeSet<_>>() {
        let of_sort: Vec<u32> = found.iter().copied().filter(|k| k >> 24 == sort).collect();
        same(|| format!("keys of table id {sort:02x}"), &keys(m, sort << 24, sort << 24 | 0xFF_FFFF), &of_sort);
    }
    found.iter().map(one).sum()
}

// each walks a table, and holds the number of its broken loops against the Rust's
fn broken_mpt(b: &[u8]) -> Mpt {
    same_breaks("isdb_mpt_parse", calls::mpt_parse(b), 11, || Mpt::parse(b));
    walk::mpt(b)
}

fn broken_eit(b: &[u8]) -> Eit {
    same_breaks("isdb_eit_parse", calls::eit_parse(b), 13, || Eit::parse(b));
    walk::eit(b)
}

fn broken_sdt(b: &[u8]) -> Sdt {
    same_breaks("isdb_sdt_parse", calls::sdt_parse(b), 10, || Sdt::parse(b));
    walk::sdt(b)
}

fn broken_bit(b: &[u8]) -> Bit {
    same_breaks("isdb_bit_parse", calls::bit_parse(b), 12, || Bit::parse(b));
    walk::bit(b)
}

fn broken_tot(b: &[u8]) -> Tot {
    same_breaks("isdb_tot_parse", calls::tot_parse(b), 3, || Tot::parse(b));
    walk::tot(b)
}

/// All kept tables; how many there are.
pub fn compare(m: &Memory, s: &Shadow, d: &Decoder) -> u64 {
    let mut n = sections(m, s, d);
    for &id in s.control.keys() {
        let what = format!("the MPT of control id {id}");
        let here = bytes_of(&what, m, m.mpt(id));
        n += one(&what, (here, s.mpts.get(&id)), broken_mpt, d.mpts.get(&(id as u16)));
    }
    n += one("the PLT", (bytes_of("isdb_plt", m, m.plt()), s.plt.as_ref()), walk::plt, d.plt.as_ref());
    n += one("the TOT", (bytes_of("isdb_tot", m, m.tot()), s.tot.as_ref()), broken_tot, d.tot.as_ref());
    if m.section(0x5501_0203) != Err(NOTHING) || m.mpt(0x1_0000) != Err(NOTHING) {
        differ("a key and an id that are not in use are answered".into());
    }
    n
}

/// The asset of a packet id: the control id of its MPT, the service id, and the asset.
type Carried = Option<(u32, Option<u16>, Asset)>;

fn carried_here(m: &Memory, id: u16) -> Carried {
    let v = told("isdb_asset_of", m.asset_of(id))?;
    let (start, length) = (v[1] as usize, v[2] as usize);
    let t = &m.tables[start..start + length];
    Some((v[0] as u32, maybe(v[3], v[4]), walk::asset(t, &v[5..15])))
}

fn carried_there(d: &Decoder, id: u16) -> Carried {
    let (service, asset) = d.asset_of(id)?;
    let mpt = d.mpts.iter().find(|(_, m)| m.assets.iter().any(|a| a.packet_id() == Some(id)));
    Some((u32::from(*mpt.unwrap().0), service, asset.clone()))
}

/// The assets of media ids and of the ids that MPTs name; how many there are.
pub fn compare_assets(m: &Memory, s: &Shadow, d: &Decoder) -> u64 {
    let named = d.mpts.values().flat_map(|t| t.assets.iter().filter_map(|a| a.packet_id()));
    let mut ids: BTreeSet<u16> = named.take(12).collect();
    ids.extend(s.media.keys().map(|&id| id as u16).take(8));
    ids.insert(0xFFFF);
    let one = |&id: &u16| {
        let here = carried_here(m, id);
        same(|| format!("the asset of packet id {id}"), &here, &carried_there(d, id));
        u64::from(here.is_some())
    };
    ids.iter().map(one).sum()
}

/// Tables of a session that someone else wrote to: a reading answers 5 where the bytes no longer parse, and only there.
pub fn compare_written(m: &Memory, s: &Shadow) {
    let held = |what: String, said: Said, kept: Option<bool>| {
        let code = said.err().unwrap_or(0);
        same(|| what.clone(), &code, &match kept {
            None => NOTHING,
            Some(parses) => if parses { 0 } else { 5 },
        });
    };
    for (&key, (_, b)) in &s.kept {
        held(format!("the code of section {key:08x}"), m.section(key), Some(crate::shadow::parses_as((key >> 24) as u8, b)));
    }
    for &id in s.control.keys() {
        held(format!("the code of the MPT of {id}"), m.mpt(id), s.mpts.get(&id).map(|b| Mpt::parse(b).is_some()));
    }
    held("the code of the PLT".into(), m.plt(), s.plt.as_ref().map(|b| Plt::parse(b).is_some()));
    held("the code of the TOT".into(), m.tot(), s.tot.as_ref().map(|b| Tot::parse(b).is_ok()));
    for id in 0xF100..0xF104u16 {
        held(format!("the code of the asset of {id}"), m.asset_of(id), asset_written(s, id));
    }
}

/// Whether every MPT parses up to the one that names a packet id; none where none names it.
fn asset_written(s: &Shadow, id: u16) -> Option<bool> {
    for b in s.mpts.values() {
        match Mpt::parse(b) {
            None => return Some(false),
            Some(t) if t.assets.iter().any(|a| a.packet_id() == Some(id)) => return Some(true),
            Some(_) => {}
        }
    }
    None
}
