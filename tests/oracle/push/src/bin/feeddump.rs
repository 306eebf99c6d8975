//! A recording on standard input, TLV packets one behind the other, pushed through the Rust's decoder: what each push gave and, at the
//! end, everything kept, as text. Scrambled payloads are passed on.
use isdb_mmt::decoder::Decoder;
use isdb_mmt::desc::split_errors;
use isdb_tlv::tlv::{Packet, PacketType, SYNC};
use push::session::{lines, record};
use std::io::Read;

fn push(d: &mut Decoder, number: usize, kind: u8, data: &[u8]) {
    let mut out = Vec::new();
    d.push(&Packet { kind: PacketType::from_byte(kind), data: data.to_vec() }, &mut out);
    let bytes: usize = out.iter().map(|m| m.data.len()).sum();
    println!("packet {number} kind {kind:02x} length {} records {} bytes {bytes}", data.len(), out.len());
    let mut start = 0;
    for m in &out {
        println!("mfu {}", record(m, start));
        start += m.data.len();
    }
}

fn push_all(d: &mut Decoder, input: &[u8]) {
    let (mut at, mut packets) = (0, 0);
    while at < input.len() {
        let rest = &input[at..];
        let end = rest.get(2..4).map_or(usize::MAX, |l| 4 + usize::from(l[0]) * 256 + usize::from(l[1]));
        if rest[0] != SYNC || end > rest.len() {
            return println!("end bad {at}");
        }
        push(d, packets, rest[1], &rest[4..end]);
        packets += 1;
        at += end;
    }
    println!("end packets {packets}");
}

fn key(k: &(u8, u16, u8)) -> String {
    format!("key 0x{:02x} {} {}", k.0, k.1, k.2)
}

fn tables(d: &Decoder) {
    d.mpts.iter().for_each(|(id, t)| println!("mpt {id} {}", dump::mpt(t)));
    d.plt.iter().for_each(|t| println!("plt {}", dump::plt(t)));
    d.eits.iter().for_each(|(k, t)| println!("eit {} {}", key(k), dump::eit(t, |_| String::new())));
    d.sdts.iter().for_each(|(k, t)| println!("sdt {} {}", key(k), dump::sdt(t, |_| String::new())));
    d.bits.iter().for_each(|(k, t)| println!("bit {} {}", key(k), dump::bit(t)));
    d.nits.iter().for_each(|(k, t)| println!("nit {} {}", key(k), dump::nit(t)));
    d.amts.iter().for_each(|(k, t)| println!("amt {} {}", key(k), dump::amt(t)));
    d.tot.iter().for_each(|t| println!("tot {}", dump::tot(t)));
}

fn main() {
    let mut input = Vec::new();
    std::io::stdin().read_to_end(&mut input).unwrap();
    let mut d = Decoder::new();
    d.set_pass_scrambled(true);
    push_all(&mut d, &input);
    lines(&d, split_errors());
    tables(&d);
}
