//! Many packets in one call, beside the same packets one by one, on the recording that feeddump is run on.
use isdb::{Halt, Limits, Record, Session};

const RECORDING: &[u8] = include_bytes!("../../../crates/feeddump/stdin");

const LIMITS: Limits = Limits {
    media_ids: 16,
    control_ids: 16,
    sections: 128,
    mfu_area: 131_072,
    message_area: 65_536,
    table_area: 8_192,
    packets: 4_294_967_295,
    pass_scrambled: true,
};

/// A unit with bytes of its own.
fn owned(r: Record<'_>) -> (u16, u32, Option<u32>, Vec<u8>) {
    (r.packet_id, r.mpu_sequence_number, r.item_id, r.data.to_vec())
}

fn length(packet: &[u8]) -> usize {
    usize::from(packet[2]) << 8 | usize::from(packet[3])
}

/// The units of each packet, one packet a push.
fn one_by_one(session: &mut Session) -> Vec<Vec<(u16, u32, Option<u32>, Vec<u8>)>> {
    let (mut at, mut all) = (0, Vec::new());
    while at < RECORDING.len() {
        let packet = &RECORDING[at..];
        let records = session.push(packet[1], &packet[4..4 + length(packet)]).expect("the recording is taken");
        all.push(records.map(owned).collect());
        at += 4 + length(packet);
    }
    all
}

#[test]
fn many_packets_are_as_one_by_one() {
    let (mut one, mut many) = (Session::open(LIMITS).unwrap(), Session::open(LIMITS).unwrap());
    let expected = one_by_one(&mut one);
    let (mut at, mut all) = (0, Vec::new());
    loop {
        let pushes = many.push_all(&RECORDING[at..], 65_535);
        at += pushes.taken;
        let halt = pushes.halt;
        all.extend(pushes.map(|records| records.map(owned).collect::<Vec<_>>()));
        match halt {
            Halt::End => break,
            Halt::Full => {}
            other => panic!("{other:?} at {at}"),
        }
    }
    assert_eq!(at, RECORDING.len());
    assert_eq!(all, expected);
    assert!(all.iter().flatten().count() > 100, "the recording has units");
    assert_eq!(many.counters(), one.counters());
    assert!(many.media_ids().eq(one.media_ids()));
}

#[test]
fn what_ends_a_call() {
    let mut session = Session::open(LIMITS).unwrap();
    let null = [0x7F, 0xFF, 0x00, 0x01, 0x00];
    let mut ends = |input: &[u8], most: usize| {
        let p = session.push_all(input, most);
        (p.taken, p.len(), p.halt)
    };
    assert_eq!(ends(&[], 9), (0, 0, Halt::End));
    assert_eq!(ends(&null, 9), (5, 1, Halt::End));
    assert_eq!(ends(&[null, null].concat(), 9), (10, 2, Halt::End));
    assert_eq!(ends(&[&null[..], &null[..4]].concat(), 9), (5, 1, Halt::Short));
    assert_eq!(ends(&[&null[..], &[0x47]].concat(), 9), (5, 1, Halt::Bad));
    assert_eq!(ends(&null, 0), (0, 0, Halt::Bad));
    assert_eq!(ends(&null.repeat(1_025), 9), (5_120, 1_024, Halt::Full));
}
