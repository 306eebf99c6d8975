use crate::record::MfuHeader;

/// The counts of a feed.
#[derive(Clone, Copy, Debug, Default, PartialEq, Eq)]
pub struct Counters {
    /// Packets taken.
    pub tlv_packets: u64,
    /// Datagrams that cannot be read.
    pub ip_errors: u64,
    /// Datagrams that hold no MMTP.
    pub non_mmtp: u64,
    /// Datagrams to port 123.
    pub ntp: u64,
    /// Tables in messages.
    pub tables: u64,
    /// Sections with a bad CRC.
    pub crc_errors: u64,
    /// Tables and sections that cannot be read.
    pub malformed: u64,
    /// Changes of a kept table's version.
    pub version_changes: u64,
    /// Middle and last parts of a message without a first.
    pub orphan_fragments: u64,
    /// Messages above 1,048,576 bytes.
    pub oversize: u64,
    /// Control payloads, messages and tables whose lengths do not fit.
    pub message_malformed: u64,
    /// Descriptor loops that break.
    pub split_errors: u64,
}

/// What is known of a media id.
#[derive(Clone, Debug, PartialEq, Eq)]
pub struct Media {
    /// Packets of the id.
    pub packets: u64,
    /// Packets that are missing by their numbers.
    pub packets_lost: u64,
    /// Scrambled packets.
    pub scrambled_packets: u64,
    /// Objects handed out.
    pub mfus: u64,
    /// Scrambled payloads that end an object.
    pub scrambled_mfus: u64,
    /// Objects that were begun and lost.
    pub mfus_dropped: u64,
    /// Changes of the MPU number.
    pub mpus: u64,
    /// Those to another number than the next.
    pub mpu_sequence_jumps: u64,
    /// Payloads that cannot be read.
    pub malformed: u64,
    /// The first and the last MPU number.
    pub mpu_range: Option<(u32, u32)>,
    /// The last packet's number.
    pub last_sequence: Option<u32>,
    /// Length so far of the object that is held.
    pub held: Option<u32>,
}

/// An object that is begun and not yet complete: the fields of its first unit, and its bytes so far.
#[derive(Clone, Copy, Debug, PartialEq, Eq)]
pub struct Held<'a> {
    /// Number of its MPU.
    pub mpu_sequence_number: u32,
    /// Whether it is a random access point.
    pub rap: bool,
    /// Of timed data.
    pub header: Option<MfuHeader>,
    /// Of other data.
    pub item_id: Option<u32>,
    /// The bytes so far.
    pub data: &'a [u8],
}

/// What is known of a packet id of control messages.
#[derive(Clone, Copy, Debug, PartialEq, Eq)]
pub struct Control {
    /// The last packet's number.
    pub last_sequence: Option<u32>,
    /// Length so far of the message that is being joined.
    pub joined: Option<u32>,
}

/// What a kept section is kept for. Keys are in the order of these fields.
#[derive(Clone, Copy, Debug, PartialEq, Eq, PartialOrd, Ord, Hash)]
pub struct Key {
    /// 8Bh to 9Bh EIT, 9Dh BIT, 9Fh and A0h SDT, 40h and 41h NIT, FEh AMT.
    pub table_id: u8,
    /// Table id extension: a service, a stream, a network.
    pub extension: u16,
    /// Number of the section.
    pub section_number: u8,
}

impl From<u32> for Key {
    fn from(x: u32) -> Self {
        let [table_id, high, low, section_number] = x.to_be_bytes();
        Key { table_id, extension: u16::from_be_bytes([high, low]), section_number }
    }
}

impl From<Key> for u32 {
    fn from(k: Key) -> Self {
        let [high, low] = k.extension.to_be_bytes();
        u32::from_be_bytes([k.table_id, high, low, k.section_number])
    }
}

/// The asset that a media id carries, and the MPT that names it.
#[derive(Clone, Copy, Debug, PartialEq, Eq)]
pub struct CarriedAsset<'a> {
    /// The control id that the MPT is kept for.
    pub control_id: u16,
    /// The MPT's bytes.
    pub mpt: &'a [u8],
    /// The MPT's service.
    pub service_id: Option<u16>,
    /// The asset.
    pub asset: Asset<'a>,
}

/// An asset of an MPT.
#[derive(Clone, Copy, Debug, PartialEq, Eq)]
pub struct Asset<'a> {
    /// Type of its identifier.
    pub identifier_type: u8,
    /// Scheme of its id.
    pub asset_id_scheme: u32,
    /// Its id.
    pub asset_id: &'a [u8],
    /// Four characters, as `hev1`.
    pub asset_type: [u8; 4],
    /// Whether it has a clock relation.
    pub clock_relation: bool,
    /// How many locations it has.
    pub locations: u8,
    /// Where the first stands in the MPT's bytes.
    pub locations_start: usize,
    /// Its descriptor loop.
    pub descriptors: &'a [u8],
}
