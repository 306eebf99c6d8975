use crate::{sys, Refused};

/// What a session has room for. Numbers out of range are refused.
#[derive(Clone, Copy, Debug, PartialEq, Eq)]
pub struct Limits {
    /// Places for packet ids of media: 1 to 64.
    pub media_ids: u64,
    /// Places for packet ids of control messages: 1 to 32.
    pub control_ids: u64,
    /// Places for kept sections: 1 to 512.
    pub sections: u64,
    /// Bytes for the object that a media id holds until it is complete: 1 to 16,777,216.
    pub mfu_area: u64,
    /// Bytes for the message that a control id joins: 1 to 1,048,576.
    pub message_area: u64,
    /// Bytes for each kept table: 1 to 65,539.
    pub table_area: u64,
    /// How many packets are taken: 1 to 4,294,967,295.
    pub packets: u64,
    /// Whether scrambled payloads are handed out, and not only counted.
    pub pass_scrambled: bool,
}

/// How many bytes of memory a session needs, buffer by buffer.
#[derive(Clone, Copy, Debug, PartialEq, Eq)]
pub struct Lengths {
    /// Limits, counts and all that is known of ids and tables.
    pub state: u64,
    /// Held objects.
    pub objects: u64,
    /// Messages that are being joined.
    pub messages: u64,
    /// Kept tables.
    pub tables: u64,
}

impl Limits {
    /// How much memory a session with these limits needs, or the number of the question that they fail.
    pub fn needed(&self) -> Result<Lengths, Refused> {
        let mut v = [0; 16];
        // SAFETY: two arrays, which do not overlap.
        match unsafe { sys::isdb_needed(&self.numbers(), &mut v) } {
            0 => Ok(Lengths { state: v[0], objects: v[1], messages: v[2], tables: v[3] }),
            number => Err(Refused(number)),
        }
    }

    pub(crate) fn numbers(&self) -> [u64; 8] {
        [
            self.media_ids,
            self.control_ids,
            self.sections,
            self.mfu_area,
            self.message_area,
            self.table_area,
            self.packets,
            self.pass_scrambled.into(),
        ]
    }
}
