//! Feeds as the list that the program `replay` takes: `S` and the setting, TLV packets, `L`. Only packets that its session takes are in it.
use crate::feed::{Feed, Step};
use crate::layout::Limits;
use crate::questions;
use crate::shadow::Shadow;
use std::io::{self, Write};

/// The limits and the outputs of crates/replay/src/main.rt.
const LIMITS: Limits = Limits {
    media_ids: 8,
    control_ids: 4,
    sections: 64,
    mfu_area: 16_384,
    message_area: 16_384,
    table_area: 4_096,
    packets: u32::MAX as u64,
    pass_scrambled: false,
};
const ROWS: usize = 36_864;
const OUT: usize = 131_072;

/// Longer packets are left out, so that the list stays small.
const LONGEST: usize = 1_500;

fn is_taken(shadow: &mut Shadow, kind: u8, data: &[u8], pass: bool) -> bool {
    let o = shadow.look(kind, data, pass);
    let taken = data.len() <= LONGEST && questions::packet(data, &o.needs, shadow, &LIMITS, ROWS, OUT) == 0;
    if taken {
        shadow.take(o.changes);
    }
    taken
}

/// A feed's items, and how many of them are packets.
fn items(feed: &Feed) -> (Vec<u8>, u64) {
    let pass = feed.limits.pass_scrambled;
    let (mut shadow, mut list, mut packets) = (Shadow::default(), vec![b'S', pass.into()], 0);
    for step in &feed.steps {
        if let Step::Packet(kind, data) = step
            && is_taken(&mut shadow, *kind, data, pass)
        {
            list.extend([0x7F, *kind]);
            list.extend((data.len() as u16).to_be_bytes());
            list.extend(data);
            packets += 1;
        }
    }
    list.push(b'L');
    (list, packets)
}

/// Feeds up to so many bytes, on standard output.
pub fn write(feeds: impl Iterator<Item = Feed>, most: usize) -> io::Result<()> {
    let mut left = most;
    let mut out = io::stdout().lock();
    for feed in feeds {
        let (list, packets) = items(&feed);
        if packets == 0 {
            continue;
        }
        if list.len() > left {
            break;
        }
        left -= list.len();
        out.write_all(&list)?;
    }
    out.flush()
}
