//! The calls of the proved library, as a host makes them, on memory that is lent to it.
//!
//! A call answers a code and, with code 0, sixteen numbers. Every wrapper holds it to that: with another code the sixteen stay as they
//! were, with 0 those behind the ones it has to say are 0.
use crate::differ::differ;

pub type Numbers = [u64; 16];
/// What a call said, or its code.
pub type Said = Result<Numbers, u8>;

pub const NOTHING: u8 = 20;
pub const NO_ID: u8 = 21;
pub const MALFORMED: u8 = 22;

const UNTOUCHED: Numbers = [0xA5A5_5A5A_0F0F_F0F0; 16];

/// Runs a call that has `n` numbers to say.
fn said(name: &str, n: usize, call: impl FnOnce(*mut u64) -> u8) -> Said {
    let mut v = UNTOUCHED;
    match call(v.as_mut_ptr()) {
        0 if v[n..].iter().any(|&x| x != 0) => differ(format!("{name}: numbers behind the first {n} are not 0: {v:?}")),
        0 => Ok(v),
        code if v != UNTOUCHED => differ(format!("{name}: code {code}, yet its numbers were written: {v:?}")),
        code => Err(code),
    }
}

/// The five buffers of a session.
#[derive(Clone, PartialEq)]
pub struct Memory {
    pub state: Vec<u8>,
    pub others: Box<[u64; 256]>,
    pub objects: Vec<u8>,
    pub messages: Vec<u8>,
    pub tables: Vec<u8>,
}

macro_rules! session_calls {
    ($($call:ident as $name:ident($($arg:ident: $kind:ty),*) says $n:literal;)*) => {
        unsafe extern "C" {
            $(fn $call(
                state: *const u8, state_len: usize, others: *const u64, objects: *const u8, objects_len: usize,
                messages: *const u8, messages_len: usize, tables: *const u8, tables_len: usize, $($arg: $kind,)* v: *mut u64,
            ) -> u8;)*
        }
        impl Memory {
            $(pub fn $name(&self, $($arg: $kind),*) -> Said {
                let (s, o, m, t) = (&self.state, &self.objects, &self.messages, &self.tables);
                // SAFETY: the library reads within the lengths that are given and writes sixteen numbers at most.
                said(stringify!($call), $n, |v| unsafe {
                    $call(
                        s.as_ptr(), s.len(), self.others.as_ptr(), o.as_ptr(), o.len(), m.as_ptr(), m.len(), t.as_ptr(), t.len(),
                        $($arg,)* v,
                    )
                })
            })*
        }
    };
}

session_calls! {
    isdb_counters as counters() says 12;
    isdb_time as time() says 1;
    isdb_table_count as table_count(id: u8) says 1;
    isdb_next_media as next_media(from: u32) says 1;
    isdb_next_control as next_control(from: u32) says 1;
    isdb_next_key as next_key(first: u32, last: u32) says 1;
    isdb_media as media(id: u32) says 16;
    isdb_held as held(id: u32) says 12;
    isdb_control as control(id: u32) says 4;
    isdb_section as section(key: u32) says 2;
    isdb_mpt as mpt(control_id: u32) says 2;
    isdb_plt as plt() says 2;
    isdb_tot as tot() says 2;
    isdb_asset_of as asset_of(packet_id: u16) says 15;
}

macro_rules! byte_calls {
    ($($call:ident as $name:ident($($before:ident: $earlier:ty),*; bytes; $($arg:ident: $kind:ty),*) says $n:literal;)*) => {
        unsafe extern "C" {
            $(fn $call($($before: $earlier,)* b: *const u8, b_len: usize, $($arg: $kind,)* v: *mut u64) -> u8;)*
        }
        $(pub fn $name($($before: $earlier,)* b: &[u8], $($arg: $kind),*) -> Said {
            // SAFETY: as above.
            said(stringify!($call), $n, |v| unsafe { $call($($before,)* b.as_ptr(), b.len(), $($arg,)* v) })
        })*
    };
}

byte_calls! {
    isdb_mpt_parse as mpt_parse(; bytes; ) says 12;
    isdb_asset_at as asset_at(; bytes; at: usize) says 13;
    isdb_location_at as location_at(; bytes; at: usize) says 13;
    isdb_plt_parse as plt_parse(; bytes; ) says 4;
    isdb_package_at as package_at(; bytes; at: usize) says 4;
    isdb_delivery_at as delivery_at(; bytes; at: usize) says 3;
    isdb_eit_parse as eit_parse(; bytes; ) says 14;
    isdb_sdt_parse as sdt_parse(; bytes; ) says 11;
    isdb_bit_parse as bit_parse(; bytes; ) says 13;
    isdb_nit_parse as nit_parse(; bytes; ) says 13;
    isdb_amt_parse as amt_parse(; bytes; ) says 9;
    isdb_tot_parse as tot_parse(; bytes; ) says 4;
    isdb_event_at as event_at(; bytes; at: usize) says 8;
    isdb_service_at as service_at(; bytes; at: usize) says 9;
    isdb_broadcaster_at as broadcaster_at(; bytes; at: usize) says 4;
    isdb_stream_at as stream_at(; bytes; at: usize) says 5;
    isdb_flow_at as flow_at(; bytes; at: usize) says 9;
    isdb_tlv_at as tlv_at(; bytes; at: usize) says 4;
    isdb_frequency_khz as frequency_khz(tag: u8; bytes; ) says 1;
    isdb_descriptor_at as descriptor_at(; bytes; at: usize) says 4;
    isdb_decode as decode(tag: u16; bytes; ) says 9;
    isdb_timestamp_at as timestamp_at(; bytes; at: usize) says 3;
    isdb_mpu_at as mpu_at(; bytes; own: u8, at: usize) says 7;
    isdb_access_unit_at as access_unit_at(; bytes; default_given: u8, default_pts_offset: u16, own: u8, at: usize) says 4;
    isdb_listed_service_at as listed_service_at(; bytes; at: usize) says 3;
    isdb_genre_at as genre_at(; bytes; at: usize) says 4;
}

unsafe extern "C" {
    fn isdb_needed(limits: *const u64, v: *mut u64) -> u8;
    fn isdb_open(
        limits: *const u64, state: *mut u8, state_len: usize, others: *mut u64, objects: *const u8, objects_len: usize,
        messages: *const u8, messages_len: usize, tables: *const u8, tables_len: usize,
    ) -> u8;
    fn isdb_push(
        state: *mut u8, state_len: usize, others: *mut u64, objects: *mut u8, objects_len: usize, messages: *mut u8,
        messages_len: usize, tables: *mut u8, tables_len: usize, kind: u8, data: *const u8, data_len: usize, rows: *mut u8,
        rows_len: usize, out: *mut u8, out_len: usize, v: *mut u64,
    ) -> u8;
    fn isdb_push_all(
        state: *mut u8, state_len: usize, others: *mut u64, objects: *mut u8, objects_len: usize, messages: *mut u8,
        messages_len: usize, tables: *mut u8, tables_len: usize, input: *const u8, input_len: usize, most: usize, rows: *mut u8,
        rows_len: usize, out: *mut u8, out_len: usize, lines: *mut u8, lines_len: usize, v: *mut u64,
    ) -> u8;
    fn isdb_crc32(b: *const u8, b_len: usize) -> u32;
    fn isdb_ntp_to_unix(t: u64) -> f64;
}

pub fn needed(limits: &[u64; 8]) -> Said {
    // SAFETY: eight numbers are read, sixteen written.
    said("isdb_needed", 4, |v| unsafe { isdb_needed(limits.as_ptr(), v) })
}

pub fn crc32(b: &[u8]) -> u32 {
    // SAFETY: the bytes are read within their length.
    unsafe { isdb_crc32(b.as_ptr(), b.len()) }
}

/// The bits of the Unix time.
pub fn ntp_to_unix(t: u64) -> u64 {
    // SAFETY: takes and gives a number.
    unsafe { isdb_ntp_to_unix(t) }.to_bits()
}

impl Memory {
    /// The code of an opening.
    pub fn open(&mut self, limits: &[u64; 8]) -> u8 {
        let (o, m, t) = (&self.objects, &self.messages, &self.tables);
        // SAFETY: the library writes within `state` and `others` alone.
        unsafe {
            isdb_open(
                limits.as_ptr(), self.state.as_mut_ptr(), self.state.len(), self.others.as_mut_ptr(), o.as_ptr(), o.len(), m.as_ptr(),
                m.len(), t.as_ptr(), t.len(),
            )
        }
    }

    /// How many records and bytes a push hands out, or its number.
    pub fn push(&mut self, kind: u8, data: &[u8], rows: &mut [u8], out: &mut [u8]) -> Result<(usize, usize), u8> {
        let Memory { state, others, objects, messages, tables } = self;
        // SAFETY: the library writes within the buffers' lengths; none of them overlap.
        let told = said("isdb_push", 2, |v| unsafe {
            isdb_push(
                state.as_mut_ptr(), state.len(), others.as_mut_ptr(), objects.as_mut_ptr(), objects.len(), messages.as_mut_ptr(),
                messages.len(), tables.as_mut_ptr(), tables.len(), kind, data.as_ptr(), data.len(), rows.as_mut_ptr(), rows.len(),
                out.as_mut_ptr(), out.len(), v,
            )
        });
        told.map(|v| (v[0] as usize, v[1] as usize))
    }

    /// How far a call for many packets came: the place, packets, records, bytes, why it ended, and the number of a packet turned down.
    pub fn push_all(&mut self, input: &[u8], most: usize, rows: &mut [u8], out: &mut [u8], lines: &mut [u8]) -> Said {
        let Memory { state, others, objects, messages, tables } = self;
        // SAFETY: as above.
        said("isdb_push_all", 6, |v| unsafe {
            isdb_push_all(
                state.as_mut_ptr(), state.len(), others.as_mut_ptr(), objects.as_mut_ptr(), objects.len(), messages.as_mut_ptr(),
                messages.len(), tables.as_mut_ptr(), tables.len(), input.as_ptr(), input.len(), most, rows.as_mut_ptr(), rows.len(),
                out.as_mut_ptr(), out.len(), lines.as_mut_ptr(), lines.len(), v,
            )
        })
    }
}
