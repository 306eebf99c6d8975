//! The questions of document 01 before a call, stated on their own: over a session's bytes, and over what a packet needs.
use crate::calls::Memory;
use crate::layout::{self, Head, Limits, MOST, STATE_BYTES};
use crate::shadow::{Needs, Shadow};
use std::collections::BTreeSet;

const MOST_COUNT: u64 = 1 << 53;

/// Opening: the number of the first question that is answered no, or 0.
pub fn opening(l: &Limits, m: &Memory) -> u8 {
    let within = |x: u64, most: u64| (1..=most).contains(&x);
    // 1. Are the three place limits in range?
    if ![l.media_ids, l.control_ids, l.sections].iter().zip(MOST).all(|(&x, most)| within(x, most)) {
        return 1;
    }
    // 2. Are the three areas in range?
    if !(within(l.mfu_area, 16_777_216) && within(l.message_area, 1_048_576) && within(l.table_area, 65_539)) {
        return 2;
    }
    // 3. Is every lent buffer as long as the limits need?
    let needs = l.areas().unwrap();
    let lent = [m.objects.len(), m.messages.len(), m.tables.len()];
    if m.state.len() < STATE_BYTES || needs.iter().zip(lent).any(|(&n, lent)| (lent as u64) < n) {
        return 3;
    }
    // 4. Is the packet limit in range?
    if !within(l.packets, 4_294_967_295) {
        return 4;
    }
    0
}

fn all_differ(mut names: impl Iterator<Item = u32>) -> bool {
    let mut seen = BTreeSet::new();
    names.all(|n| seen.insert(n))
}

fn lengths_fit(m: &Memory, h: &Head) -> bool {
    let l = &h.limits;
    let fits = |n: Option<usize>, area: u64| n.is_none_or(|n| n as u64 <= area);
    let b = &m.state;
    fits(h.plt, l.table_area)
        && fits(h.tot, l.table_area)
        && layout::media(b, h.used[0]).all(|x| fits(x.held.map(|o| o.length), l.mfu_area))
        && layout::controls(b, h.used[1]).all(|x| fits(x.joined.map(|j| j.length), l.message_area) && fits(x.mpt, l.table_area))
        && layout::sections(b, h.used[2]).all(|x| fits(Some(x.length), l.table_area))
}

/// 5. Do the session record's limits pass 1 to 4 and its lengths fit their areas, no media id, control id or key twice among its own
/// sort, no count above 2^53?
pub fn holds_session(m: &Memory) -> bool {
    if m.state.len() < STATE_BYTES {
        return false;
    }
    let (b, h) = (&m.state, Head::of(&m.state));
    if opening(&h.limits, m) != 0 {
        return false;
    }
    let places = [h.limits.media_ids, h.limits.control_ids, h.limits.sections];
    if h.used.iter().zip(places).any(|(&n, most)| n as u64 > most) {
        return false;
    }
    let counts_fit = |counts: &[u64]| counts.iter().all(|&n| n <= MOST_COUNT);
    lengths_fit(m, &h)
        && all_differ(layout::media(b, h.used[0]).map(|x| x.id))
        && all_differ(layout::controls(b, h.used[1]).map(|x| x.id))
        && all_differ(layout::sections(b, h.used[2]).map(|x| x.key))
        && counts_fit(&h.counters)
        && counts_fit(&m.others[..])
        && layout::media(b, h.used[0]).all(|x| counts_fit(&x.counts))
}

/// 6. Is the data at most 65,535 bytes?
pub fn data_short_enough(data: &[u8]) -> bool {
    data.len() <= 65_535
}

/// 7. Are fewer packets taken than the limit?
pub fn packets_left(taken: u64, l: &Limits) -> bool {
    taken < l.packets
}

/// 8. Has each id and key that the packet would keep a place, or a free one to itself?
fn places_left(n: &Needs, s: &Shadow, l: &Limits) -> bool {
    let fits = |used: usize, new: usize, most: u64| new == 0 || (used + new) as u64 <= most;
    fits(s.media.len(), n.media, l.media_ids) && fits(s.control.len(), n.control, l.control_ids) && fits(s.kept.len(), n.keys, l.sections)
}

/// 9. Does each object, joined message and table that the packet would hold or form fit its area?
fn areas_suffice(n: &Needs, l: &Limits) -> bool {
    n.object as u64 <= l.mfu_area && n.message as u64 <= l.message_area && n.table as u64 <= l.table_area
}

/// 10. Do the records and data fit the output buffers?
fn outputs_suffice(n: &Needs, rows: usize, out: usize) -> bool {
    36 * n.records <= rows && n.bytes <= out
}

/// A packet's number on a session for which question 5 is answered yes; the first no decides.
pub fn packet(data: &[u8], n: &Needs, s: &Shadow, l: &Limits, rows: usize, out: usize) -> u8 {
    let answers = [
        (6, data_short_enough(data)),
        (7, packets_left(s.taken, l)),
        (8, places_left(n, s, l)),
        (9, areas_suffice(n, l)),
        (10, outputs_suffice(n, rows, out)),
    ];
    answers.iter().find(|a| !a.1).map_or(0, |a| a.0)
}
