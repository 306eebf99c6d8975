//! The calls, as include/isdb_tables.h has them: the numbers of an answer, or the code that says why there are none.
use std::ffi::c_uchar;

/// Sixteen numbers of an answer.
pub(super) type Numbers = [u64; 16];

macro_rules! calls {
    ($($name:ident = $call:ident($($first:ident: $first_type:ty,)* [bytes] $(, $arg:ident: $type:ty)*);)*) => {
        extern "C" {
            $(fn $call(
                $($first: $first_type,)*
                bytes: *const c_uchar,
                length: usize,
                $($arg: $type,)*
                v: &mut Numbers,
            ) -> u8;)*
        }

        $(pub(super) fn $name($($first: $first_type,)* bytes: &[u8] $(, $arg: $type)*) -> Result<Numbers, u8> {
            let mut v = [0; 16];
            // SAFETY: the pointer leads to so many bytes, and `v` does not overlap them.
            match unsafe { $call($($first,)* bytes.as_ptr(), bytes.len(), $($arg,)* &mut v) } {
                0 => Ok(v),
                code => Err(code),
            }
        })*
    };
}

calls! {
    mpt = isdb_mpt_parse([bytes]);
    asset = isdb_asset_at([bytes], at: usize);
    location = isdb_location_at([bytes], at: usize);
    plt = isdb_plt_parse([bytes]);
    package = isdb_package_at([bytes], at: usize);
    delivery = isdb_delivery_at([bytes], at: usize);
    eit = isdb_eit_parse([bytes]);
    sdt = isdb_sdt_parse([bytes]);
    bit = isdb_bit_parse([bytes]);
    nit = isdb_nit_parse([bytes]);
    amt = isdb_amt_parse([bytes]);
    tot = isdb_tot_parse([bytes]);
    event = isdb_event_at([bytes], at: usize);
    service = isdb_service_at([bytes], at: usize);
    broadcaster = isdb_broadcaster_at([bytes], at: usize);
    stream = isdb_stream_at([bytes], at: usize);
    flow = isdb_flow_at([bytes], at: usize);
    tlv = isdb_tlv_at([bytes], at: usize);
    frequency_khz = isdb_frequency_khz(tag: u8, [bytes]);
    descriptor = isdb_descriptor_at([bytes], at: usize);
    decode = isdb_decode(tag: u16, [bytes]);
    timestamp = isdb_timestamp_at([bytes], at: usize);
    mpu = isdb_mpu_at([bytes], own: u8, at: usize);
    access_unit = isdb_access_unit_at([bytes], default_given: u8, default_pts_offset: u16, own: u8, at: usize);
    listed_service = isdb_listed_service_at([bytes], at: usize);
    genre = isdb_genre_at([bytes], at: usize);
}

extern "C" {
    fn isdb_crc32(bytes: *const c_uchar, length: usize) -> u32;

    fn isdb_ntp_to_unix(timestamp: u64) -> f64;
}

pub(super) fn crc32(bytes: &[u8]) -> u32 {
    // SAFETY: the pointer leads to so many bytes.
    unsafe { isdb_crc32(bytes.as_ptr(), bytes.len()) }
}

pub(super) fn ntp_to_unix(timestamp: u64) -> f64 {
    // SAFETY: a number alone.
    unsafe { isdb_ntp_to_unix(timestamp) }
}
