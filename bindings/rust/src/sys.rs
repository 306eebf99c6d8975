//! The calls, as include/isdb.h has them.
use std::ffi::c_uchar;

/// Sixteen numbers of an answer.
pub(crate) type Numbers = [u64; 16];

macro_rules! reading {
    ($($name:ident($($arg:ident: $type:ty),*);)*) => {
        extern "C" {
            $(pub(crate) fn $name(
                state: *const c_uchar,
                state_length: usize,
                others: &[u64; 256],
                objects: *const c_uchar,
                objects_length: usize,
                messages: *const c_uchar,
                messages_length: usize,
                tables: *const c_uchar,
                tables_length: usize,
                $($arg: $type,)*
                v: &mut Numbers,
            ) -> u8;)*
        }
    };
}

reading! {
    isdb_counters();
    isdb_time();
    isdb_table_count(id: u8);
    isdb_next_media(from: u32);
    isdb_next_control(from: u32);
    isdb_next_key(first: u32, last: u32);
    isdb_media(id: u32);
    isdb_held(id: u32);
    isdb_control(id: u32);
    isdb_section(key: u32);
    isdb_mpt(control_id: u32);
    isdb_plt();
    isdb_tot();
    isdb_asset_of(packet_id: u16);
}

extern "C" {
    pub(crate) fn isdb_needed(limits: &[u64; 8], v: &mut Numbers) -> u8;

    pub(crate) fn isdb_open(
        limits: &[u64; 8],
        state: *mut c_uchar,
        state_length: usize,
        others: &mut [u64; 256],
        objects: *const c_uchar,
        objects_length: usize,
        messages: *const c_uchar,
        messages_length: usize,
        tables: *const c_uchar,
        tables_length: usize,
    ) -> u8;

    pub(crate) fn isdb_push_all(
        state: *mut c_uchar,
        state_length: usize,
        others: &mut [u64; 256],
        objects: *mut c_uchar,
        objects_length: usize,
        messages: *mut c_uchar,
        messages_length: usize,
        tables: *mut c_uchar,
        tables_length: usize,
        input: *const c_uchar,
        input_length: usize,
        most: usize,
        rows: *mut c_uchar,
        rows_length: usize,
        out: *mut c_uchar,
        out_length: usize,
        lines: *mut c_uchar,
        lines_length: usize,
        v: &mut Numbers,
    ) -> u8;

    pub(crate) fn isdb_push(
        state: *mut c_uchar,
        state_length: usize,
        others: &mut [u64; 256],
        objects: *mut c_uchar,
        objects_length: usize,
        messages: *mut c_uchar,
        messages_length: usize,
        tables: *mut c_uchar,
        tables_length: usize,
        kind: u8,
        data: *const c_uchar,
        data_length: usize,
        rows: *mut c_uchar,
        rows_length: usize,
        out: *mut c_uchar,
        out_length: usize,
        v: &mut Numbers,
    ) -> u8;
}
