//! Looks: everything that a session knows, by the readings, by its bytes and of the Rust.
use crate::calls::{self, Memory};
use crate::compare::Run;
use crate::differ::{differ, same};
use crate::layout::STATE_BYTES;
use crate::shadow::Shadow;
use crate::{kept, questions, seen};
use isdb_mmt::desc::ntp_to_unix;

/// Small enough to be copied around each look.
const SMALL: usize = 1 << 16;

impl Run<'_> {
    pub fn look(&mut self) {
        let m = &self.memory;
        let small = m.state.len() + m.objects.len() + m.messages.len() + m.tables.len() < SMALL;
        let before = small.then(|| m.clone());
        self.covered.looks += 1;
        match (self.written, questions::holds_session(&self.memory)) {
            (false, true) => self.compare_all(),
            (false, false) => differ("calls alone made question 5 fail".into()),
            (true, true) => self.compare_written(),
            (true, false) => self.compare_refusals(),
        }
        if before.is_some_and(|b| b != self.memory) {
            differ("a reading wrote to the session".into());
        }
    }

    fn compare_all(&mut self) {
        let m = &self.memory;
        let (here, (bytes, joined)) = (seen::by_readings(m), seen::by_bytes(m));
        let (rust, rust_joined) = seen::of_rust(&self.rust, self.splits);
        here.held_against("by the readings", &rust);
        bytes.held_against("by the session's bytes", &rust);
        same(|| "messages being joined".into(), &joined, &rust_joined);
        same(|| "the session's bytes and the shadow".into(), &Shadow::of(m), &self.shadow);
        self.compare_counts();
        self.compare_unused();
        if let Some(t) = self.rust.ntp {
            same(|| format!("the Unix time of {t:016x}"), &calls::ntp_to_unix(t), &ntp_to_unix(t).to_bits());
        }
        self.covered.walked += kept::compare(m, &self.shadow, &self.rust);
        self.covered.assets += kept::compare_assets(m, &self.shadow, &self.rust);
    }

    /// Memory that nothing was kept in yet holds what it held when it was lent.
    fn compare_unused(&self) {
        let (Some(lent), m, l) = (&self.lent, &self.memory, &self.feed.limits) else { return };
        let (media, controls, kept) = (self.shadow.media.len(), self.shadow.control.len(), self.shadow.kept.len());
        let places = (l.sections + l.control_ids) as usize;
        let area = l.table_area as usize;
        let mut unused = vec![kept..l.sections as usize];
        unused.extend(self.shadow.plt.is_none().then_some(places..places + 1));
        unused.extend(self.shadow.tot.is_none().then_some(places + 1..places + 2));
        let tables = |m: &Memory| unused.iter().map(|r| m.tables[r.start * area..r.end * area].to_vec()).collect::<Vec<_>>();
        same(|| "areas of tables that are not kept".into(), &tables(m), &tables(lent));
        let end = (places + 2) * area;
        let rest = |m: &Memory| [m.state[STATE_BYTES..].to_vec(), m.tables[end..].to_vec()];
        same(|| "bytes behind the state and the tables".into(), &rest(m), &rest(lent));
        let at = media * l.mfu_area as usize;
        same(|| "areas of objects not in use".into(), &m.objects[at..], &lent.objects[at..]);
        let at = controls * l.message_area as usize;
        same(|| "areas of messages not in use".into(), &m.messages[at..], &lent.messages[at..]);
    }

    /// Tables that are only counted: all 256 as they are lent, and by the reading those that came and some that did not.
    fn compare_counts(&self) {
        let rust: Vec<u64> = (0..=255).map(|id| self.rust.other_tables.get(&id).copied().unwrap_or(0)).collect();
        same(|| "counts of other tables".into(), &self.memory.others[..], &rust[..]);
        let turn = (self.covered.looks % 32) as usize;
        for id in (0..256).filter(|id| id % 32 == turn || rust[*id] > 0) {
            let told = self.memory.table_count(id as u8).map(|v| v[0]);
            same(|| format!("isdb_table_count {id}"), &told, &Ok(rust[id]));
        }
    }

    fn compare_written(&mut self) {
        let (here, (bytes, _)) = (seen::by_readings(&self.memory), seen::by_bytes(&self.memory));
        here.held_against("by the readings and, as the Rust's, by the session's bytes", &bytes);
        kept::compare_written(&self.memory, &Shadow::of(&self.memory));
    }

    /// Every reading answers 5.
    fn compare_refusals(&mut self) {
        let m = &self.memory;
        let told = [
            m.counters(), m.time(), m.table_count(7), m.next_media(0), m.next_control(0), m.next_key(0, u32::MAX), m.media(0xF100),
            m.held(0xF100), m.control(0), m.section(0x8B01_9100), m.mpt(0), m.plt(), m.tot(), m.asset_of(0xF100),
        ];
        same(|| "readings of what is no session".into(), &told, &[Err(5); 14]);
    }
}
