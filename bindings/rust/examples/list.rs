//! Lists the media ids of a recording of TLV packets on standard input, with their counts, as feedlist does.
use isdb::{Halt, Limits, Session};
use std::io::{self, Read};

const LIMITS: Limits = Limits {
    media_ids: 16,
    control_ids: 16,
    sections: 128,
    mfu_area: 131_072,
    message_area: 65_536,
    table_area: 8_192,
    packets: 4_294_967_295,
    pass_scrambled: false,
};

/// How reading ended. A window on the input is filled, its packets are taken, and what is left of it goes to the front.
fn push_all(session: &mut Session, input: &mut impl Read) -> io::Result<String> {
    let mut window = vec![0; 131_072];
    let (mut held, mut offset) = (0, 0);
    loop {
        let more = input.read(&mut window[held..])?;
        if more == 0 {
            return Ok(if held == 0 { "clean".into() } else { format!("bad {offset}") });
        }
        let (end, mut at) = (held + more, 0);
        loop {
            let pushes = session.push_all(&window[at..end], 65_535);
            at += pushes.taken;
            match pushes.halt {
                Halt::End | Halt::Short => break,
                Halt::Full => {}
                Halt::Bad => return Ok(format!("bad {}", offset + at)),
                Halt::Refused(refused) => return Ok(format!("refused {}", refused.number())),
            }
            // Here a host would use the records of each packet: `for records in pushes { .. }`.
        }
        window.copy_within(at..end, 0);
        (held, offset) = (end - at, offset + at);
    }
}

fn main() -> Result<(), Box<dyn std::error::Error>> {
    let mut session = Session::open(LIMITS)?;
    let end = push_all(&mut session, &mut io::stdin().lock())?;
    println!("id packets lost scrambled mfus dropped held malformed");
    for id in session.media_ids() {
        let Some(m) = session.media(id) else { continue };
        let held = u8::from(m.held.is_some());
        print!("{id} {} {} {} ", m.packets, m.packets_lost, m.scrambled_packets);
        println!("{} {} {held} {}", m.mfus, m.mfus_dropped, m.malformed);
    }
    let c = session.counters();
    println!("tlv {} ip {} other {} end {end}", c.tlv_packets, c.ip_errors, c.non_mmtp);
    Ok(())
}
