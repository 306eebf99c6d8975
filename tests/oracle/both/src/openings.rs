//! Openings: the number, the bytes that one which is accepted writes, and the lengths that limits need.
use crate::calls;
use crate::compare::Run;
use crate::differ::same;
use crate::layout::{Limits, STATE_BYTES};
use crate::questions;
use crate::random::Random;

impl Run<'_> {
    /// Some openings with limits at their bounds, of which most are turned down.
    pub fn openings(&mut self, r: &mut Random) {
        const BOUNDS: [u64; 7] = [64, 32, 512, 1 << 24, 1 << 20, 65_539, u32::MAX as u64];
        for _ in 0..3 {
            let mut words = self.feed.limits.words();
            let i = r.below(7);
            words[i] = r.pick(&[0, 1, words[i] + 1, BOUNDS[i], BOUNDS[i] + 1, u64::MAX]);
            let [media_ids, control_ids, sections, mfu_area, message_area, table_area, packets, _] = words;
            let limits =
                Limits { media_ids, control_ids, sections, mfu_area, message_area, table_area, packets, ..self.feed.limits };
            self.opening(&limits);
        }
    }

    pub fn opening(&mut self, l: &Limits) {
        let (number, before) = (questions::opening(l, &self.memory), self.memory.state.clone());
        let others = self.memory.others.clone();
        same(|| format!("isdb_open {l:?}"), &self.memory.open(&l.words()), &number);
        self.needed(l, number);
        self.covered.openings[usize::from(number)] += 1;
        if number != 0 {
            return same(|| "an opening that is turned down writes".into(), &(&self.memory.state, &self.memory.others), &(&before, &others));
        }
        let mut state: Vec<u8> = l.words()[..7].iter().flat_map(|x| x.to_be_bytes()).collect();
        state.push(l.pass_scrambled.into());
        state.resize(STATE_BYTES, 0);
        state.extend(&before[STATE_BYTES..]);
        same(|| "the state after an opening".into(), &self.memory.state, &state);
        same(|| "the counts after an opening".into(), &self.memory.others[..], &[0; 256]);
    }

    /// The lengths that limits need, or the number of limits that no memory would do for.
    fn needed(&self, l: &Limits, opened: u8) {
        let told = calls::needed(&l.words()).map(|v| [v[0], v[1], v[2], v[3]]);
        let expected = match opened {
            1 | 2 | 4 => Err(opened),
            3 if l.packets == 0 || l.packets > u32::MAX.into() => Err(4),
            _ => l.areas().map(|a| [STATE_BYTES as u64, a[0], a[1], a[2]]).ok_or(0),
        };
        same(|| format!("isdb_needed {l:?}"), &told, &expected);
    }
}
