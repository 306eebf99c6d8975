//! A feed as it is run: the memory that is lent, and steps.
use crate::layout::Limits;
use std::fmt;

#[derive(Clone, Copy, Debug, PartialEq)]
pub enum Area {
    State,
    Others,
    Objects,
    Messages,
    Tables,
}

#[derive(Clone, PartialEq)]
pub enum Step {
    Packet(u8, Vec<u8>),
    /// Someone else writes to the lent memory.
    Write(Area, usize, Vec<u8>),
    /// Bytes of the state stand a second time: from a place, to a place, how many.
    Copy(usize, usize, usize),
    /// A buffer is lent shorter by so many bytes from now on.
    Shorten(Area, usize),
    /// Everything that the session knows is compared.
    Look,
}

#[derive(Clone)]
pub struct Feed {
    pub limits: Limits,
    /// Bytes lent beyond what the limits need, of each buffer.
    pub slack: usize,
    pub rows: usize,
    pub out: usize,
    /// What the lent memory holds before: bytes from this seed, or zeros.
    pub fill: Option<u64>,
    pub steps: Vec<Step>,
}

fn hex(b: &[u8]) -> String {
    b.iter().map(|x| format!("{x:02x}")).collect()
}

impl fmt::Display for Step {
    fn fmt(&self, f: &mut fmt::Formatter) -> fmt::Result {
        match self {
            Step::Packet(kind, data) => write!(f, "packet {kind:02x} {}", hex(data)),
            Step::Write(area, at, b) => write!(f, "write {area:?} {at} {}", hex(b)),
            Step::Copy(from, to, n) => write!(f, "copy {from} {to} {n}"),
            Step::Shorten(area, n) => write!(f, "shorten {area:?} {n}"),
            Step::Look => write!(f, "look"),
        }
    }
}

impl fmt::Display for Feed {
    fn fmt(&self, f: &mut fmt::Formatter) -> fmt::Result {
        writeln!(f, "{:?}", self.limits)?;
        writeln!(f, "rows {} out {} slack {} fill {:?}", self.rows, self.out, self.slack, self.fill)?;
        self.steps.iter().try_for_each(|s| writeln!(f, "{s}"))
    }
}
