//! What a decoder holds beside its tables, as text.
//!
//! Last numbers, held objects and messages being joined are private to the decoder: they are read off its `Debug` text.
use crate::{counters, counts};
use dump::{flag, hex, maybe};
use isdb_mmt::decoder::Decoder;
use isdb_mmt::desc::ntp_to_unix;
use isdb_mmt::mpu::{Mfu, MfuHeader};
use isdb_ts::crc::crc32;

/// A value's `Debug` text without strings: the word in front, and the parts in brackets, each with its name or key, if it has one.
struct Shown {
    word: String,
    parts: Vec<(String, Shown)>,
}

impl Shown {
    fn read(text: &mut &str) -> Shown {
        let end = text.find(|c: char| !c.is_alphanumeric() && c != '_').unwrap_or(text.len());
        let (word, rest) = text.split_at(end);
        let mut shown = Shown { word: word.into(), parts: Vec::new() };
        *text = rest;
        let Some(inside) = rest.trim_start().strip_prefix(['{', '[', '(']) else { return shown };
        *text = inside.trim_start();
        loop {
            if let Some(rest) = text.strip_prefix(['}', ']', ')']) {
                *text = rest;
                return shown;
            }
            let mut part = (String::new(), Shown::read(text));
            if let Some(rest) = text.strip_prefix(": ") {
                *text = rest;
                part = (part.1.word, Shown::read(text));
            }
            shown.parts.push(part);
            *text = text.trim_start_matches([',', ' ']);
        }
    }

    fn find(&self, name: &str) -> Option<&Shown> {
        self.parts.iter().find(|p| p.0 == name).map(|p| &p.1)
    }

    fn of(&self, name: &str) -> &Shown {
        self.find(name).unwrap()
    }

    /// What is in `Some(..)`.
    fn some(&self) -> Option<&Shown> {
        (self.word == "Some").then(|| &self.parts[0].1)
    }

    fn number<T: std::str::FromStr<Err: std::fmt::Debug>>(&self) -> T {
        self.word.parse().unwrap()
    }

    fn flag(&self) -> bool {
        self.number()
    }

    fn bytes(&self) -> Vec<u8> {
        self.parts.iter().map(|p| p.1.number()).collect()
    }

    fn mfu(&self) -> Mfu {
        Mfu {
            packet_id: self.of("packet_id").number(),
            mpu_sequence_number: self.of("mpu_sequence_number").number(),
            header: self.of("header").some().map(|h| MfuHeader {
                movie_fragment_sequence_number: h.of("movie_fragment_sequence_number").number(),
                sample_number: h.of("sample_number").number(),
                offset: h.of("offset").number(),
                priority: h.of("priority").number(),
                dependency_counter: h.of("dependency_counter").number(),
            }),
            item_id: self.of("item_id").some().map(Shown::number),
            rap: self.of("rap").flag(),
            scrambled: self.of("scrambled").flag(),
            data: self.of("data").bytes(),
        }
    }
}

/// The decoder's private fields, which come first; no table, and so no string, is among them.
fn private(d: &Decoder) -> Shown {
    let text = format!("{d:?}");
    let (fields, _) = text.split_once(", mpts: ").unwrap();
    Shown::read(&mut &format!("{fields} }}")[..])
}

/// The number and the CRC of some bytes.
pub fn sum(data: &[u8]) -> String {
    format!("{} {:08x}", data.len(), crc32(data))
}

/// An MFU's record of 36 bytes.
pub fn row(m: &Mfu, start: usize) -> Vec<u8> {
    let flags = flag(m.rap) | flag(m.scrambled) << 1 | flag(m.header.is_some()) << 2 | flag(m.item_id.is_some()) << 3;
    let mut b = m.packet_id.to_be_bytes().to_vec();
    b.extend([flags, 0]);
    b.extend(m.mpu_sequence_number.to_be_bytes());
    let h = m.header;
    for x in [h.map(|h| h.movie_fragment_sequence_number), h.map(|h| h.sample_number), h.map(|h| h.offset)] {
        b.extend(x.unwrap_or(0).to_be_bytes());
    }
    b.extend([h.map_or(0, |h| h.priority), h.map_or(0, |h| h.dependency_counter), 0, 0]);
    for x in [m.item_id.unwrap_or(0), start as u32, m.data.len() as u32] {
        b.extend(x.to_be_bytes());
    }
    b
}

/// The record, its data's length and CRC.
pub fn record(m: &Mfu, start: usize) -> String {
    format!("{} {}", hex(&row(m, start)), sum(&m.data))
}

fn media(d: &Decoder, mpu: &Shown) {
    for (id, s) in d.mpu_stats() {
        let state = mpu.of("assets").of(&id.to_string());
        let said: Vec<String> = counts(s).iter().map(|(name, n)| format!("{name} {n}")).collect();
        println!("media {id} {}", said.join(" "));
        println!("media {id} mpu_range {}", maybe(s.mpu_range.map(|(first, last)| format!("{first} {last}"))));
        println!("media {id} last_sequence {}", maybe(state.of("last_seq").some().map(|n| &n.word)));
        println!("media {id} held {}", maybe(state.of("partial").some().map(|m| record(&m.mfu(), 0))));
        let asset = d.asset_of(id);
        let said = asset.map(|(s, a)| format!("service {} type {} id {}", maybe(s), hex(&a.asset_type), hex(&a.asset_id)));
        println!("media {id} asset_of {}", maybe(said));
    }
}

fn control(numbers: &Shown, messages: &Shown) {
    for (id, number) in &numbers.parts {
        println!("control {id} last_sequence {}", number.word);
        let held = messages.of("partial").find(id).map(|p| {
            let (long, aggregated) = (flag(p.of("long_len").flag()), flag(p.of("aggregated").flag()));
            format!("long_length {long} aggregated {aggregated} {}", sum(&p.of("buf").bytes()))
        });
        println!("control {id} held {}", maybe(held));
    }
}

/// The counters, the time, media ids, control ids and counts of other tables; `splits` is what the descriptor loops of this decoder have
/// added to the process's count.
pub fn lines(d: &Decoder, splits: u64) {
    for (name, value) in counters(d, splits) {
        println!("counter {name} {value}");
    }
    println!("ntp {}", maybe(d.ntp.map(|t| format!("{t:016x} unix_bits {:016x}", ntp_to_unix(t).to_bits()))));
    let seen = private(d);
    media(d, seen.of("mpu"));
    control(seen.of("last_ctrl_seq"), seen.of("messages"));
    for (id, n) in d.other_tables.iter().filter(|t| *t.1 > 0) {
        println!("other 0x{id:02x} {n}");
    }
}
