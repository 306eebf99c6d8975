//! Whole feeds: limits, senders with their numbers, and steps.
use super::messages::Rest;
use super::media::Sender;
use super::packets::Head;
use super::{Maker, be};
use crate::feed::{Feed, Step};
use crate::layout::Limits;
use std::collections::BTreeMap;

/// What a feed is like.
struct Style {
    /// Of a hundred packets so many are media, and so many messages.
    media: usize,
    messages: usize,
    /// Once in so many packets: a number that does not follow, a header extension, damage.
    lost: usize,
    extended: usize,
    damaged: usize,
    /// The most data bytes of a unit.
    unit: usize,
    /// Messages with tables of up to 65,539 bytes.
    big: bool,
    /// Someone else writes to the session.
    spoilt: bool,
}

/// The senders of a feed, by packet id.
#[derive(Default)]
struct Senders {
    media: BTreeMap<u16, (Option<Sender>, u32)>,
    control: BTreeMap<u16, (Rest, u32)>,
}

impl Maker {
    fn style(&mut self) -> Style {
        let media = self.r.pick(&[5, 40, 40, 70]);
        Style {
            media,
            messages: (95 - media) * self.r.pick(&[1, 2, 3]) / 3,
            lost: self.r.pick(&[8, 25, 80]),
            extended: self.r.pick(&[2, 5, 20]),
            damaged: self.r.pick(&[6, 20, 1000]),
            unit: if self.r.once_in(20) { 4000 } else { self.r.pick(&[3, 20, 60]) },
            big: self.r.once_in(150),
            spoilt: self.r.once_in(8),
        }
    }

    fn small_limits(&mut self) -> Limits {
        Limits {
            media_ids: self.r.between(1, 4) as u64,
            control_ids: self.r.between(1, 3) as u64,
            sections: self.r.between(1, 6) as u64,
            mfu_area: self.r.pick(&[1, 5, 20, 60, 200]),
            message_area: self.r.pick(&[1, 20, 60, 200, 600]),
            table_area: self.r.pick(&[12, 30, 60, 120, 300, 600]),
            packets: if self.r.once_in(8) { self.r.between(1, 30) as u64 } else { u32::MAX.into() },
            pass_scrambled: self.r.once_in(2),
        }
    }

    /// Limits under which little is turned down, and memory that is quick to copy.
    fn middle_limits(&mut self) -> Limits {
        Limits {
            media_ids: 8,
            control_ids: 6,
            sections: 24,
            mfu_area: 2_000,
            message_area: 2_000,
            table_area: 1_000,
            packets: 1_000,
            pass_scrambled: self.r.once_in(2),
        }
    }

    fn large_limits(&mut self, s: &Style) -> Limits {
        Limits {
            media_ids: self.r.pick(&[32, 64]),
            control_ids: self.r.pick(&[16, 32]),
            sections: self.r.pick(&[128, 512]),
            mfu_area: if s.unit > 1000 { 1 << 20 } else { 1 << 16 },
            message_area: if s.big { 1 << 20 } else { 1 << 16 },
            table_area: if s.big { 65_539 } else { self.r.pick(&[4_098, 8_192]) },
            packets: u32::MAX.into(),
            pass_scrambled: self.r.once_in(2),
        }
    }

    /// The number behind another: the next, or one that does not follow.
    fn number_after(&mut self, last: u32, lost: usize) -> u32 {
        const STEPS: [u32; 9] = [0, 2, 3, 5, u32::MAX, 1 << 20, (1 << 20) + 1, (1 << 20) + 2, 1 << 31];
        last.wrapping_add(if self.r.once_in(lost) { self.r.pick(&STEPS) } else { 1 })
    }

    fn media_packet(&mut self, style: &Style, s: &mut Senders) -> (u8, Vec<u8>) {
        let packet_id = self.media_id();
        let first = self.r.pick(&[5, u32::MAX - 2, u32::MAX, 0]);
        let (sender, last) = s.media.entry(packet_id).or_insert((None, first));
        *last = self.number_after(*last, style.lost);
        let head = Head { kind: 0, packet_id, sequence: *last, extended: style.extended };
        let sender = sender.get_or_insert_with(|| self.sender());
        let payload = self.media_payload(sender, style.unit);
        let packet = self.mmtp(&head, &payload);
        self.datagram(2, &packet)
    }

    fn control_packet(&mut self, style: &Style, s: &mut Senders) -> (u8, Vec<u8>) {
        let packet_id = if self.r.once_in(40) { self.r.word() as u16 } else { self.r.pick(&[0, 0x8001, 0xF100]) };
        let first = self.r.pick(&[5, u32::MAX - 2, u32::MAX, 0]);
        let (rest, last) = s.control.entry(packet_id).or_insert((Rest::default(), first));
        *last = self.number_after(*last, style.lost);
        let head = Head { kind: 2, packet_id, sequence: *last, extended: style.extended * 4 };
        if style.big && self.r.once_in(6) {
            self.big_message(rest);
        }
        let payload = self.control_payload(rest);
        let packet = self.mmtp(&head, &payload);
        self.datagram(2, &packet)
    }

    fn packet(&mut self, style: &Style, s: &mut Senders) -> (u8, Vec<u8>) {
        let k = self.r.below(100);
        let (kind, mut b) = if k < style.media {
            self.media_packet(style, s)
        } else if k < style.media + style.messages {
            self.control_packet(style, s)
        } else if k < 98 {
            self.other_packet()
        } else {
            // neither media nor messages
            let head = Head { kind: self.r.pick(&[1, 3, 4, 63]), packet_id: self.media_id(), sequence: 1, extended: 4 };
            let payload = self.some();
            let packet = self.mmtp(&head, &payload);
            self.datagram(2, &packet)
        };
        if self.r.once_in(style.damaged) {
            self.damage(&mut b);
        }
        if self.r.once_in(3000) {
            let n = self.r.pick(&[65_535, 65_536, 70_000]);
            b.resize(n, 0);
        }
        (kind, b)
    }

    fn steps(&mut self, style: &Style, limits: &Limits) -> Vec<Step> {
        let (mut senders, mut steps) = (Senders::default(), Vec::new());
        let n = self.r.pick(&[5, 20, 60, 150]);
        let spoilt = style.spoilt.then(|| self.r.below(n + 1));
        for i in 0..n {
            let (kind, b) = self.packet(style, &mut senders);
            steps.push(Step::Packet(kind, b));
            if self.r.once_in(25) {
                steps.push(Step::Look);
            }
            if spoilt.is_some_and(|at| i >= at && i < at + 6) {
                steps.push(self.write(limits));
                steps.push(Step::Look);
            }
        }
        steps.push(Step::Look);
        steps
    }

    pub fn feed(&mut self) -> Feed {
        let style = self.style();
        let small = !style.big && self.r.once_in(3);
        let limits = match (small, style.spoilt) {
            (true, _) => self.small_limits(),
            (false, true) => self.middle_limits(),
            (false, false) => self.large_limits(&style),
        };
        let fill = small.then(|| self.r.word());
        let (rows, out) = if small {
            (self.r.pick(&[0, 35, 36, 71, 108, 180, 360]), self.r.pick(&[0, 1, 10, 40, 100, 400, 9000]))
        } else {
            (36 * 64, 1 << if style.unit > 1000 || style.big { 18 } else { 15 })
        };
        let steps = self.steps(&style, &limits);
        let mut feed = Feed { limits, slack: self.r.pick(&[0, 0, 1, 16]), rows, out, fill, steps };
        // drawn last, so that the packets do not depend on it: crates/replay has some of them stored
        if style.spoilt && self.r.once_in(3) {
            self.name_twice(&mut feed.steps);
        }
        feed
    }

    /// An MPT of nearly as many bytes as there can be, as the rest of a message that begins with the next part.
    fn big_message(&mut self, rest: &mut Rest) {
        let most = 65_535 - 9;
        let n = self.r.pick(&[most, most - 1, most + 1, 40_000]);
        let own = [vec![0xF1, 0x23], be(n as u64 - 4, 2), vec![7; n - 4]].concat();
        let body = [vec![0, 2, 1, 2], be(n as u64, 2), own, vec![0, 0, 0]].concat();
        let table = [vec![0x20, self.version()], be(body.len() as u64 & 0xFFFF, 2), body].concat();
        let message = [vec![0, 0, 0], be(table.len() as u64 + 1, 4), vec![0], table].concat();
        rest.restart(&message, self.r.pick(&[15_000, 30_000, 60_000]));
    }
}
