use std::slice::ChunksExact;

pub(crate) const RECORD_LENGTH: usize = 36;

/// The header of a media unit of timed data.
#[derive(Clone, Copy, Debug, PartialEq, Eq)]
pub struct MfuHeader {
    /// Number of the movie fragment.
    pub movie_fragment_sequence_number: u32,
    /// Number of the sample in it.
    pub sample_number: u32,
    /// Where the unit starts in the sample.
    pub offset: u32,
    /// Priority among the units.
    pub priority: u8,
    /// How many units depend on this one.
    pub dependency_counter: u8,
}

/// A media unit that a packet completed. Its fields are those of the unit that began it.
#[derive(Clone, Copy, Debug, PartialEq, Eq)]
pub struct Record<'a> {
    /// The media id.
    pub packet_id: u16,
    /// Whether it is a random access point.
    pub rap: bool,
    /// Whether it is a scrambled payload that is passed on as it came.
    pub scrambled: bool,
    /// Number of its MPU.
    pub mpu_sequence_number: u32,
    /// Of timed data.
    pub header: Option<MfuHeader>,
    /// Of other data.
    pub item_id: Option<u32>,
    /// The unit's bytes.
    pub data: &'a [u8],
}

fn u32_at(row: &[u8], at: usize) -> u32 {
    u32::from_be_bytes([row[at], row[at + 1], row[at + 2], row[at + 3]])
}

impl<'a> Record<'a> {
    fn of(row: &[u8], out: &'a [u8]) -> Self {
        let flags = row[2];
        let start = u32_at(row, 28) as usize;
        let length = u32_at(row, 32) as usize;
        Record {
            packet_id: u16::from_be_bytes([row[0], row[1]]),
            rap: flags & 1 != 0,
            scrambled: flags & 2 != 0,
            mpu_sequence_number: u32_at(row, 4),
            header: (flags & 4 != 0).then(|| MfuHeader {
                movie_fragment_sequence_number: u32_at(row, 8),
                sample_number: u32_at(row, 12),
                offset: u32_at(row, 16),
                priority: row[20],
                dependency_counter: row[21],
            }),
            item_id: (flags & 8 != 0).then(|| u32_at(row, 24)),
            data: &out[start..start + length],
        }
    }
}

/// The media units that a packet completed, in order.
#[derive(Clone, Debug)]
pub struct Records<'a> {
    rows: ChunksExact<'a, u8>,
    out: &'a [u8],
}

impl<'a> Records<'a> {
    pub(crate) fn new(rows: &'a [u8], out: &'a [u8]) -> Self {
        Records { rows: rows.chunks_exact(RECORD_LENGTH), out }
    }
}

impl<'a> Iterator for Records<'a> {
    type Item = Record<'a>;

    fn next(&mut self) -> Option<Record<'a>> {
        Some(Record::of(self.rows.next()?, self.out))
    }

    fn size_hint(&self) -> (usize, Option<usize>) {
        self.rows.size_hint()
    }
}

impl ExactSizeIterator for Records<'_> {}
