use std::{error::Error, fmt};

/// An opening or a packet that was turned down: the number of the first question that is answered no. Nothing was changed.
#[derive(Clone, Copy, Debug, PartialEq, Eq, Hash)]
pub struct Refused(pub(crate) u8);

impl Refused {
    /// 1 to 4 of limits, 6 to 10 of a packet.
    pub fn number(self) -> u8 {
        self.0
    }

    fn text(self) -> &'static str {
        match self.0 {
            1 => "media_ids, control_ids or sections is out of range",
            2 => "mfu_area, message_area or table_area is out of range",
            3 => "a buffer is shorter than the limits need",
            4 => "packets is out of range",
            5 => "the memory holds no session",
            6 => "the packet has more than 65,535 bytes of data",
            7 => "as many packets were taken as the limit says",
            8 => "no place is free for a media id, a control id or a section of the packet",
            9 => "an object, a message or a table of the packet is longer than its area",
            10 => "there is no room for what the packet hands out",
            _ => "an unknown number",
        }
    }
}

impl fmt::Display for Refused {
    fn fmt(&self, f: &mut fmt::Formatter<'_>) -> fmt::Result {
        write!(f, "refused {}: {}", self.0, self.text())
    }
}

impl Error for Refused {}
