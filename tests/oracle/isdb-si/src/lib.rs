//! Stand-in for what the MMT files use of isdb-si: times as their bits stand.
pub mod time {
    #[derive(Debug, Clone, Copy, PartialEq, Eq)]
    pub struct MjdTime(pub u64);

    impl MjdTime {
        pub fn from_u40(bits: u64) -> Self {
            Self(bits)
        }
    }

    #[derive(Debug, Clone, Copy, PartialEq, Eq)]
    pub struct BcdDuration(pub u32);
}
