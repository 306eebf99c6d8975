use crate::record::RECORD_LENGTH;
use crate::{Records, Refused};
use std::slice::ChunksExact;

pub(crate) const LINE_LENGTH: usize = 16;

/// Why a call for many packets ended.
#[derive(Clone, Copy, Debug, PartialEq, Eq)]
pub enum Halt {
    /// All of the input was taken.
    End,
    /// What is left may be the start of a packet, and is not a whole one.
    Short,
    /// What is left is no packet: another first byte than 7Fh, or too many data.
    Bad,
    /// There is no more room for what packets hand out: the call is to be made again with what is left.
    Full,
    /// The packet that is left is turned down.
    Refused(Refused),
}

impl Halt {
    /// By its code and number. The outputs are long enough for every single packet, so that where others were taken before it a packet without
    /// room finds it in the next call.
    pub(crate) fn of(code: u64, number: u64, packets: u64) -> Halt {
        match (code, number) {
            (0, _) => Halt::End,
            (1, _) => Halt::Short,
            (2, _) => Halt::Bad,
            (3, _) => Halt::Full,
            (_, 10) if packets > 0 => Halt::Full,
            (_, n) => Halt::Refused(Refused(n as u8)),
        }
    }
}

/// What a call for many packets took: for each packet the media units that it completed, in order.
#[derive(Clone, Debug)]
pub struct Pushes<'a> {
    /// How many bytes of the input were taken.
    pub taken: usize,
    /// Why the call ended.
    pub halt: Halt,
    pub(crate) lines: ChunksExact<'a, u8>,
    pub(crate) rows: &'a [u8],
    pub(crate) out: &'a [u8],
}

fn number(line: &[u8]) -> usize {
    line.iter().fold(0, |n, &x| n << 8 | usize::from(x))
}

impl<'a> Iterator for Pushes<'a> {
    type Item = Records<'a>;

    fn next(&mut self) -> Option<Records<'a>> {
        let (records, bytes) = self.lines.next()?.split_at(8);
        let (rows, more_rows) = self.rows.split_at(number(records) * RECORD_LENGTH);
        let (out, more_out) = self.out.split_at(number(bytes));
        (self.rows, self.out) = (more_rows, more_out);
        Some(Records::new(rows, out))
    }

    fn size_hint(&self) -> (usize, Option<usize>) {
        self.lines.size_hint()
    }
}

impl ExactSizeIterator for Pushes<'_> {}
