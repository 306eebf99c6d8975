//! A session by hand-made packets.
use isdb::{Limits, MfuHeader, Session};

const LIMITS: Limits = Limits {
    media_ids: 4,
    control_ids: 4,
    sections: 4,
    mfu_area: 4096,
    message_area: 4096,
    table_area: 2048,
    packets: 4_294_967_295,
    pass_scrambled: false,
};

/// A compressed packet of media id F100h: its number, and the third byte of its payload (fragment type, timed, division, aggregation).
fn media(sequence: u8, form: u8, units: &[u8]) -> Vec<u8> {
    let mut p = vec![0, 0x10, 0x61, 0, 0, 0xF1, 0, 0, 0, 0, 0, 0, 0, 0, sequence];
    p.extend(u16::try_from(6 + units.len()).unwrap().to_be_bytes());
    p.extend([form, 0, 0, 0, 0, 7]);
    p.extend(units);
    p
}

fn timed_unit() -> Vec<u8> {
    let mut unit = vec![0; 14];
    unit.extend([0xAA, 0xBB]);
    unit
}

#[test]
fn a_complete_unit_and_a_broken_object() {
    let mut s = Session::open(LIMITS).unwrap();
    let mut records = s.push(3, &media(5, 0x28, &timed_unit())).unwrap();
    assert_eq!(records.len(), 1);
    let r = records.next().unwrap();
    assert_eq!((r.packet_id, r.rap, r.scrambled, r.mpu_sequence_number, r.item_id), (0xF100, false, false, 7, None));
    let zero = MfuHeader { movie_fragment_sequence_number: 0, sample_number: 0, offset: 0, priority: 0, dependency_counter: 0 };
    assert_eq!(r.header, Some(zero));
    assert_eq!(r.data, [0xAA, 0xBB]);

    assert_eq!(s.push(3, &media(6, 0x2A, &timed_unit())).unwrap().len(), 0);
    let held = s.held(0xF100).unwrap();
    assert_eq!((held.mpu_sequence_number, held.header, held.data), (7, Some(zero), &[0xAA, 0xBB][..]));
    assert_eq!(s.media(0xF100).unwrap().held, Some(2));

    assert_eq!(s.push(3, &media(8, 0x2E, &timed_unit())).unwrap().len(), 0);
    let m = s.media(0xF100).unwrap();
    assert_eq!((m.packets, m.packets_lost, m.scrambled_packets, m.mfus, m.mfus_dropped, m.malformed), (3, 1, 0, 1, 1, 0));
    assert_eq!((m.mpus, m.mpu_range, m.last_sequence, m.held), (1, Some((7, 7)), Some(8), None));
    assert_eq!(s.held(0xF100), None);
    assert_eq!(s.counters().tlv_packets, 3);
    assert_eq!(s.media_ids().collect::<Vec<_>>(), [0xF100]);
}

#[test]
fn nothing_known() {
    let s = Session::open(LIMITS).unwrap();
    assert_eq!(s.counters(), isdb::Counters::default());
    assert_eq!((s.time(), s.plt(), s.tot(), s.mpt(0)), (None, None, None, None));
    assert_eq!((s.media(1), s.held(1), s.control(1), s.asset_of(1)), (None, None, None, None));
    assert_eq!((s.media_ids().count(), s.control_ids().count(), s.keys(0..=255).count(), s.table_count(9)), (0, 0, 0, 0));
}

#[test]
fn limits_out_of_range() {
    let number = |l: Limits| Session::open(l).unwrap_err().number();
    assert_eq!(number(Limits { media_ids: 65, ..LIMITS }), 1);
    assert_eq!(number(Limits { sections: 0, packets: 0, ..LIMITS }), 1);
    assert_eq!(number(Limits { table_area: 65_540, ..LIMITS }), 2);
    assert_eq!(number(Limits { packets: 4_294_967_296, ..LIMITS }), 4);
    let need = LIMITS.needed().unwrap();
    assert_eq!((need.state, need.objects, need.messages, need.tables), (13_144, 16_384, 16_384, 20_480));
}

#[test]
fn refused_packets_change_nothing() {
    let mut s = Session::open(Limits { media_ids: 1, mfu_area: 2, packets: 2, ..LIMITS }).unwrap();
    s.push(3, &media(5, 0x2A, &timed_unit())).unwrap();
    let before = format!("{:?} {:?}", s.media(0xF100), s.counters());

    let number = |s: &mut Session, data: &[u8]| s.push(3, data).unwrap_err().number();
    assert_eq!(number(&mut s, &[0; 65_536]), 6);
    let mut other = media(6, 0x28, &timed_unit());
    other[6] = 1;
    assert_eq!(number(&mut s, &other), 8);
    let longer = s.push(3, &media(6, 0x2C, &timed_unit())).unwrap_err();
    assert_eq!(longer.to_string(), "refused 9: an object, a message or a table of the packet is longer than its area");
    assert_eq!(format!("{:?} {:?}", s.media(0xF100), s.counters()), before);

    s.push(0xFF, &[]).unwrap();
    assert_eq!(number(&mut s, &[]), 7);
}

/// As many units as a packet can hold: the outputs are long enough.
#[test]
fn most_records() {
    let unit = [0, 4, 0, 0, 0, 9];
    let packet = media(1, 0x21, &unit.repeat(10_918));
    assert!(packet.len() <= 65_535 && packet.len() + unit.len() > 65_535);
    let mut s = Session::open(LIMITS).unwrap();
    let records = s.push(3, &packet).unwrap();
    assert_eq!(records.filter(|r| r.item_id == Some(9) && r.data.is_empty()).count(), 10_918);
}
