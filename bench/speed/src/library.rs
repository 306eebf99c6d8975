//! The proved library's side: a session in memory that is lent once, and the calls that the run makes on it (include/isdb.h).
use crate::feed::Step;
use std::hint::black_box;

pub type Numbers = [u64; 16];

pub const LIMITS: [u64; 8] = [64, 32, 512, 1_048_576, 65_536, 4_096, u32::MAX as u64, 0];
const STATE: usize = 13_144;
const ROWS: usize = 36 * 512;
pub const OUT: usize = 1_048_576;
const LINES: usize = 16 * 512;

unsafe extern "C" {
    fn isdb_open(
        limits: *const u64,
        state: *mut u8,
        state_len: usize,
        others: *mut u64,
        objects: *const u8,
        objects_len: usize,
        messages: *const u8,
        messages_len: usize,
        tables: *const u8,
        tables_len: usize,
    ) -> u8;
    fn isdb_push(
        state: *mut u8,
        state_len: usize,
        others: *mut u64,
        objects: *mut u8,
        objects_len: usize,
        messages: *mut u8,
        messages_len: usize,
        tables: *mut u8,
        tables_len: usize,
        kind: u8,
        data: *const u8,
        data_len: usize,
        rows: *mut u8,
        rows_len: usize,
        out: *mut u8,
        out_len: usize,
        v: *mut u64,
    ) -> u8;
    fn isdb_push_all(
        state: *mut u8,
        state_len: usize,
        others: *mut u64,
        objects: *mut u8,
        objects_len: usize,
        messages: *mut u8,
        messages_len: usize,
        tables: *mut u8,
        tables_len: usize,
        input: *const u8,
        input_len: usize,
        most: usize,
        rows: *mut u8,
        rows_len: usize,
        out: *mut u8,
        out_len: usize,
        lines: *mut u8,
        lines_len: usize,
        v: *mut u64,
    ) -> u8;
    fn isdb_crc32(b: *const u8, b_len: usize) -> u32;
}

pub fn crc32(b: &[u8]) -> u32 {
    // SAFETY: the bytes are read within their length.
    unsafe { isdb_crc32(b.as_ptr(), b.len()) }
}

pub struct Library {
    state: Vec<u8>,
    others: Box<[u64; 256]>,
    objects: Vec<u8>,
    messages: Vec<u8>,
    pub tables: Vec<u8>,
    pub rows: Vec<u8>,
    pub out: Vec<u8>,
    lines: Vec<u8>,
    pub v: Numbers,
}

macro_rules! readings {
    ($($call:ident as $name:ident($($arg:ident: $kind:ty),*);)*) => {
        unsafe extern "C" {
            $(fn $call(
                state: *const u8, state_len: usize, others: *const u64, objects: *const u8, objects_len: usize,
                messages: *const u8, messages_len: usize, tables: *const u8, tables_len: usize, $($arg: $kind,)* v: *mut u64,
            ) -> u8;)*
        }
        impl Library {
            $(pub fn $name(&self, $($arg: $kind),*) -> Result<Numbers, u8> {
                let (s, o, m, t) = (&self.state, &self.objects, &self.messages, &self.tables);
                let mut v = [0; 16];
                // SAFETY: the library reads within the lengths that are given and writes sixteen numbers at most.
                let code = unsafe {
                    $call(
                        s.as_ptr(), s.len(), self.others.as_ptr(), o.as_ptr(), o.len(), m.as_ptr(), m.len(), t.as_ptr(), t.len(),
                        $($arg,)* v.as_mut_ptr(),
                    )
                };
                if code == 0 { Ok(v) } else { Err(code) }
            })*
        }
    };
}

readings! {
    isdb_counters as counters();
    isdb_next_media as next_media(from: u32);
    isdb_media as media(id: u32);
    isdb_next_key as next_key(first: u32, last: u32);
    isdb_section as section(key: u32);
    isdb_mpt as mpt(control_id: u32);
    isdb_plt as plt();
}

impl Library {
    pub fn open() -> Library {
        let [media, controls, sections, mfu, message, table, ..] = LIMITS.map(|n| n as usize);
        let mut l = Library {
            state: vec![0; STATE],
            others: Box::new([0; 256]),
            objects: vec![0; media * mfu],
            messages: vec![0; controls * message],
            tables: vec![0; (sections + controls + 2) * table],
            rows: vec![0; ROWS],
            out: vec![0; OUT],
            lines: vec![0; LINES],
            v: [0; 16],
        };
        assert_eq!(l.opened(), 0, "the code of isdb_open");
        l
    }

    fn opened(&mut self) -> u8 {
        let (o, m, t) = (&self.objects, &self.messages, &self.tables);
        // SAFETY: the library writes within `state` and `others` alone.
        unsafe {
            isdb_open(
                LIMITS.as_ptr(),
                self.state.as_mut_ptr(),
                self.state.len(),
                self.others.as_mut_ptr(),
                o.as_ptr(),
                o.len(),
                m.as_ptr(),
                m.len(),
                t.as_ptr(),
                t.len(),
            )
        }
    }

    /// Pushes packets that lie one behind the other, a window at a time; how many were taken.
    #[inline]
    pub fn push_all(&mut self, input: &[u8], window: usize) -> u64 {
        let (mut at, mut packets) = (0, 0);
        while at < input.len() {
            let window = &input[at..input.len().min(at + window)];
            // SAFETY: the library writes within the buffers' lengths; none of them overlap.
            unsafe {
                isdb_push_all(
                    self.state.as_mut_ptr(),
                    self.state.len(),
                    self.others.as_mut_ptr(),
                    self.objects.as_mut_ptr(),
                    self.objects.len(),
                    self.messages.as_mut_ptr(),
                    self.messages.len(),
                    self.tables.as_mut_ptr(),
                    self.tables.len(),
                    window.as_ptr(),
                    window.len(),
                    65_535,
                    self.rows.as_mut_ptr(),
                    self.rows.len(),
                    self.out.as_mut_ptr(),
                    self.out.len(),
                    self.lines.as_mut_ptr(),
                    self.lines.len(),
                    self.v.as_mut_ptr(),
                )
            };
            black_box((&self.rows, &self.out, &self.lines, &self.v));
            if self.v[1] == 0 {
                return packets;
            }
            (at, packets) = (at + self.v[0] as usize, packets + self.v[1]);
        }
        packets
    }

    /// The code of a push; records and data are in `rows` and `out`, how many of them in `v`.
    #[inline]
    pub fn push(&mut self, step: &Step) -> u8 {
        let data = &step.packet.data;
        // SAFETY: the library writes within the buffers' lengths; none of them overlap.
        let code = unsafe {
            isdb_push(
                self.state.as_mut_ptr(),
                self.state.len(),
                self.others.as_mut_ptr(),
                self.objects.as_mut_ptr(),
                self.objects.len(),
                self.messages.as_mut_ptr(),
                self.messages.len(),
                self.tables.as_mut_ptr(),
                self.tables.len(),
                step.kind,
                data.as_ptr(),
                data.len(),
                self.rows.as_mut_ptr(),
                self.rows.len(),
                self.out.as_mut_ptr(),
                self.out.len(),
                self.v.as_mut_ptr(),
            )
        };
        black_box((&self.rows, &self.out, &self.v));
        code
    }
}
