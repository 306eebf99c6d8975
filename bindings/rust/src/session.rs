use crate::pushes::LINE_LENGTH;
use crate::record::RECORD_LENGTH;
use crate::sys::{self, Numbers};
use crate::{Asset, CarriedAsset, Control, Counters, Halt, Held, Key, Limits, Media, MfuHeader, Pushes, Records, Refused};
use std::{fmt, iter, ops::RangeInclusive};

/// A unit takes at least 6 bytes of a packet, so that no packet completes more.
const MOST_RECORDS: usize = 10_918;

/// How many packets one call takes at most.
const MOST_PACKETS: usize = 1_024;

/// A session: its memory, and outputs that are long enough for every packet.
#[derive(Clone)]
pub struct Session {
    state: Vec<u8>,
    others: Box<[u64; 256]>,
    objects: Vec<u8>,
    messages: Vec<u8>,
    tables: Vec<u8>,
    rows: Vec<u8>,
    out: Vec<u8>,
    lines: Vec<u8>,
}

impl fmt::Debug for Session {
    fn fmt(&self, f: &mut fmt::Formatter<'_>) -> fmt::Result {
        f.debug_struct("Session").field("counters", &self.counters()).finish_non_exhaustive()
    }
}

fn bytes(length: u64) -> Vec<u8> {
    vec![0; usize::try_from(length).expect("a length is a usize")]
}

/// What a reading answered, or that there is nothing. Of a session that was opened, and that only calls wrote to, it is proved that no
/// reading answers another code; all memory here is private, so that nothing else writes.
fn answered(code: u8, v: Numbers) -> Option<Numbers> {
    match code {
        0 => Some(v),
        20 | 21 => None,
        _ => unreachable!("a session that was opened answered {code}"),
    }
}

/// SAFETY: each pointer leads to a buffer of the session, with its length; they and `v` do not overlap, and nothing writes to the
/// session while it is borrowed.
macro_rules! read {
    ($s:expr, $call:ident($($arg:expr),*)) => {{
        let s: &Session = $s;
        let mut v = [0; 16];
        let code = unsafe {
            sys::$call(
                s.state.as_ptr(),
                s.state.len(),
                &s.others,
                s.objects.as_ptr(),
                s.objects.len(),
                s.messages.as_ptr(),
                s.messages.len(),
                s.tables.as_ptr(),
                s.tables.len(),
                $($arg,)*
                &mut v,
            )
        };
        answered(code, v)
    }};
}

fn given(there: u64, x: u64) -> Option<u32> {
    (there != 0).then_some(x as u32)
}

/// Names in ascending order: the least, then the least above it.
fn ascending<'a>(first: u32, least: impl Fn(u32) -> Option<u32> + 'a) -> impl Iterator<Item = u32> + 'a {
    let mut from = Some(first);
    iter::from_fn(move || {
        let name = from.and_then(&least);
        from = name.and_then(|x| x.checked_add(1));
        name
    })
}

impl Session {
    /// Opens a session with these limits, in memory of its own.
    pub fn open(limits: Limits) -> Result<Session, Refused> {
        let need = limits.needed()?;
        let mut s = Session {
            state: bytes(need.state),
            others: Box::new([0; 256]),
            objects: bytes(need.objects),
            messages: bytes(need.messages),
            tables: bytes(need.tables),
            rows: vec![0; MOST_RECORDS * RECORD_LENGTH],
            out: bytes(limits.mfu_area.max(65_535)),
            lines: vec![0; MOST_PACKETS * LINE_LENGTH],
        };
        // SAFETY: each pointer leads to a buffer with its length, and they do not overlap.
        let code = unsafe {
            sys::isdb_open(
                &limits.numbers(),
                s.state.as_mut_ptr(),
                s.state.len(),
                &mut s.others,
                s.objects.as_ptr(),
                s.objects.len(),
                s.messages.as_ptr(),
                s.messages.len(),
                s.tables.as_ptr(),
                s.tables.len(),
            )
        };
        match code {
            0 => Ok(s),
            number => Err(Refused(number)),
        }
    }

    /// Takes a packet: the kind byte of a TLV packet and its data. Hands out the media units that it completes. A packet that is refused
    /// changes nothing.
    pub fn push(&mut self, kind: u8, data: &[u8]) -> Result<Records<'_>, Refused> {
        let mut v = [0; 16];
        // SAFETY: each pointer leads to a buffer with its length; they do not overlap, since the session is borrowed as mutable.
        let code = unsafe {
            sys::isdb_push(
                self.state.as_mut_ptr(),
                self.state.len(),
                &mut self.others,
                self.objects.as_mut_ptr(),
                self.objects.len(),
                self.messages.as_mut_ptr(),
                self.messages.len(),
                self.tables.as_mut_ptr(),
                self.tables.len(),
                kind,
                data.as_ptr(),
                data.len(),
                self.rows.as_mut_ptr(),
                self.rows.len(),
                self.out.as_mut_ptr(),
                self.out.len(),
                &mut v,
            )
        };
        match code {
            0 => Ok(Records::new(&self.rows[..v[0] as usize * RECORD_LENGTH], &self.out[..v[1] as usize])),
            number => Err(Refused(number)),
        }
    }

    /// Takes the packets of an input: each the byte 7Fh, its kind, a length of 2 bytes (high byte first), and so many data, at most `most`. It is
    /// as if each were pushed, and faster. Hands out packet by packet what they completed, and says how much of the input was taken and why it
    /// ended.
    pub fn push_all(&mut self, input: &[u8], most: usize) -> Pushes<'_> {
        let mut v = [0; 16];
        // SAFETY: each pointer leads to a buffer with its length; they do not overlap, since the session is borrowed as mutable.
        unsafe {
            sys::isdb_push_all(
                self.state.as_mut_ptr(),
                self.state.len(),
                &mut self.others,
                self.objects.as_mut_ptr(),
                self.objects.len(),
                self.messages.as_mut_ptr(),
                self.messages.len(),
                self.tables.as_mut_ptr(),
                self.tables.len(),
                input.as_ptr(),
                input.len(),
                most,
                self.rows.as_mut_ptr(),
                self.rows.len(),
                self.out.as_mut_ptr(),
                self.out.len(),
                self.lines.as_mut_ptr(),
                self.lines.len(),
                &mut v,
            )
        };
        let [at, packets, records, bytes, code, number, ..] = v;
        Pushes {
            taken: at as usize,
            halt: Halt::of(code, number, packets),
            lines: self.lines[..packets as usize * LINE_LENGTH].chunks_exact(LINE_LENGTH),
            rows: &self.rows[..records as usize * RECORD_LENGTH],
            out: &self.out[..bytes as usize],
        }
    }

    /// The counts of the feed.
    pub fn counters(&self) -> Counters {
        let v = read!(self, isdb_counters()).unwrap_or_default();
        Counters {
            tlv_packets: v[0],
            ip_errors: v[1],
            non_mmtp: v[2],
            ntp: v[3],
            tables: v[4],
            crc_errors: v[5],
            malformed: v[6],
            version_changes: v[7],
            orphan_fragments: v[8],
            oversize: v[9],
            message_malformed: v[10],
            split_errors: v[11],
        }
    }

    /// The last NTP timestamp.
    pub fn time(&self) -> Option<u64> {
        read!(self, isdb_time()).map(|v| v[0])
    }

    /// How many tables came of an id that is only counted.
    pub fn table_count(&self, id: u8) -> u64 {
        read!(self, isdb_table_count(id)).map_or(0, |v| v[0])
    }

    /// All media ids, ascending.
    pub fn media_ids(&self) -> impl Iterator<Item = u16> + '_ {
        ascending(0, |from| read!(self, isdb_next_media(from)).map(|v| v[0] as u32)).map(|x| x as u16)
    }

    /// All packet ids of control messages, ascending.
    pub fn control_ids(&self) -> impl Iterator<Item = u16> + '_ {
        ascending(0, |from| read!(self, isdb_next_control(from)).map(|v| v[0] as u32)).map(|x| x as u16)
    }

    /// The keys of kept sections with these table ids, ascending.
    pub fn keys(&self, table_ids: RangeInclusive<u8>) -> impl Iterator<Item = Key> + '_ {
        let first = u32::from(*table_ids.start()) << 24;
        let last = u32::from(*table_ids.end()) << 24 | 0x00FF_FFFF;
        ascending(first, move |from| read!(self, isdb_next_key(from, last)).map(|v| v[0] as u32)).map(Key::from)
    }

    /// What is known of a media id.
    pub fn media(&self, id: u16) -> Option<Media> {
        let v = read!(self, isdb_media(id.into()))?;
        Some(Media {
            packets: v[0],
            packets_lost: v[1],
            scrambled_packets: v[2],
            mfus: v[3],
            scrambled_mfus: v[4],
            mfus_dropped: v[5],
            mpus: v[6],
            mpu_sequence_jumps: v[7],
            malformed: v[8],
            mpu_range: (v[9] != 0).then_some((v[10] as u32, v[11] as u32)),
            last_sequence: given(v[12], v[13]),
            held: given(v[14], v[15]),
        })
    }

    /// The object that a media id holds; none where it holds none, or where there is no such id.
    pub fn held(&self, id: u16) -> Option<Held<'_>> {
        let v = read!(self, isdb_held(id.into()))?;
        Some(Held {
            mpu_sequence_number: v[0] as u32,
            rap: v[1] != 0,
            header: (v[2] != 0).then_some(MfuHeader {
                movie_fragment_sequence_number: v[3] as u32,
                sample_number: v[4] as u32,
                offset: v[5] as u32,
                priority: v[6] as u8,
                dependency_counter: v[7] as u8,
            }),
            item_id: given(v[8], v[9]),
            data: part(&self.objects, v[10], v[11]),
        })
    }

    /// What is known of a packet id of control messages.
    pub fn control(&self, id: u16) -> Option<Control> {
        let v = read!(self, isdb_control(id.into()))?;
        Some(Control { last_sequence: given(v[0], v[1]), joined: given(v[2], v[3]) })
    }

    fn table(&self, answer: Option<Numbers>) -> Option<&[u8]> {
        answer.map(|v| part(&self.tables, v[0], v[1]))
    }

    /// The bytes of a kept section.
    pub fn section(&self, key: Key) -> Option<&[u8]> {
        self.table(read!(self, isdb_section(key.into())))
    }

    /// The bytes of the MPT that is kept for a control id.
    pub fn mpt(&self, control_id: u16) -> Option<&[u8]> {
        self.table(read!(self, isdb_mpt(control_id.into())))
    }

    /// The bytes of the kept PLT.
    pub fn plt(&self) -> Option<&[u8]> {
        self.table(read!(self, isdb_plt()))
    }

    /// The bytes of the kept TOT.
    pub fn tot(&self) -> Option<&[u8]> {
        self.table(read!(self, isdb_tot()))
    }

    /// The asset that a media id carries: of the first MPT, by ascending control id, that names it.
    pub fn asset_of(&self, packet_id: u16) -> Option<CarriedAsset<'_>> {
        let v = read!(self, isdb_asset_of(packet_id))?;
        let mpt = part(&self.tables, v[1], v[2]);
        Some(CarriedAsset {
            control_id: v[0] as u16,
            mpt,
            service_id: (v[3] != 0).then_some(v[4] as u16),
            asset: Asset {
                identifier_type: v[5] as u8,
                asset_id_scheme: v[6] as u32,
                asset_id: part(mpt, v[7], v[8]),
                asset_type: (v[9] as u32).to_be_bytes(),
                clock_relation: v[10] != 0,
                locations: v[11] as u8,
                locations_start: v[12] as usize,
                descriptors: part(mpt, v[13], v[14]),
            },
        })
    }
}

fn part(b: &[u8], start: u64, length: u64) -> &[u8] {
    &b[start as usize..][..length as usize]
}
