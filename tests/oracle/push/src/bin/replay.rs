//! The Rust's answers to a list of feeds, as the program `replay` writes them: `S` and the setting open a decoder, a TLV packet is pushed,
//! `L` lists what the decoder holds.
use dump::hex;
use isdb_mmt::decoder::Decoder;
use isdb_mmt::desc::split_errors;
use isdb_tlv::tlv::{Packet, PacketType, SYNC};
use isdb_ts::crc::crc32;
use push::kept::Carried;
use push::session::{lines, row};
use std::io::Read;

#[derive(Default)]
struct Run {
    decoder: Decoder,
    carried: Carried,
    /// Broken loops that this decoder met.
    splits: u64,
}

impl Run {
    fn open(setting: u8) -> Run {
        let mut run = Run::default();
        run.decoder.set_pass_scrambled(setting != 0);
        println!("open {setting} number 0");
        run
    }

    fn push(&mut self, kind: u8, data: &[u8]) {
        let p = Packet { kind: PacketType::from_byte(kind), data: data.to_vec() };
        let (before, mut out) = (split_errors(), Vec::new());
        self.decoder.push(&p, &mut out);
        self.splits += split_errors() - before;
        self.carried.push(&p);
        let (mut rows, mut given) = (Vec::new(), Vec::new());
        for m in &out {
            rows.extend(row(m, given.len()));
            given.extend(&m.data);
        }
        println!("push 0 records {} bytes {} {:08x} {:08x}", out.len(), given.len(), crc32(&rows), crc32(&given));
    }

    fn list(&self) {
        let (d, kept) = (&self.decoder, &self.carried);
        lines(d, self.splits);
        for (&id, _) in &d.mpts {
            kept.mpt(d, id).iter().for_each(|b| println!("kept mpt {id} {}", hex(b)));
        }
        kept.plt(d).iter().for_each(|b| println!("kept plt {}", hex(b)));
        kept.tot(d).iter().for_each(|b| println!("kept tot {}", hex(b)));
        let mut sections = kept.sections(d);
        sections.sort_unstable();
        sections.iter().for_each(|(key, b)| println!("kept section {key:08x} {}", hex(b)));
    }
}

fn main() {
    let mut input = Vec::new();
    std::io::stdin().read_to_end(&mut input).unwrap();
    let (mut at, mut run) = (0, Run::default());
    while let Some(&item) = input.get(at) {
        match item {
            b'S' => {
                run = Run::open(input[at + 1]);
                at += 2;
            }
            b'L' => {
                run.list();
                at += 1;
            }
            _ => {
                assert_eq!(item, SYNC, "no item at {at}");
                let start = at + 4;
                at = start + usize::from(u16::from_be_bytes([input[at + 2], input[at + 3]]));
                run.push(input[start - 3], &input[start..at]);
            }
        }
    }
}
