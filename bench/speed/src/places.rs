//! What a memcpy takes by where its two sides lie in their pages, at once and in blocks: why the library copies so many bytes at once and
//! not more.
use crate::measure::{best_of, elapsed};
use std::hint::black_box;

pub const BLOCKS: [usize; 3] = [usize::MAX, 4096, 2048];
/// How far behind its source in the page a copy starts.
pub const BEHIND: [usize; 6] = [0, 1, 16, 64, 512, 2048];

const PAGE: usize = 4096;
const COPIES: usize = 16;

pub struct Row {
    pub bytes: usize,
    pub behind: usize,
    /// Nanoseconds, by block.
    pub times: [f64; BLOCKS.len()],
}

fn copy(from: &[u8], to: &mut [u8], block: usize) {
    for (from, to) in from.chunks(block).zip(to.chunks_mut(block)) {
        to.copy_from_slice(black_box(from));
    }
}

/// Bytes from the start of a page on.
fn paged(b: &mut [u8]) -> &mut [u8] {
    let at = b.as_ptr().align_offset(PAGE);
    &mut b[at..]
}

/// As many sources, one page or more apart, to one place.
pub fn row(bytes: usize, behind: usize, rounds: usize) -> Row {
    let step = bytes.next_multiple_of(PAGE);
    let (mut from, mut to) = (vec![1; COPIES * step + PAGE], vec![0; bytes + 3 * PAGE]);
    let (from, to) = (paged(&mut from), paged(&mut to));
    let times = BLOCKS.map(|block| {
        let mut round = || {
            let t = elapsed(|| (0..COPIES).for_each(|i| copy(&from[i * step..][..bytes], &mut to[behind..][..bytes], block)));
            black_box(&mut *to);
            t / COPIES as f64
        };
        let [time] = best_of(rounds, [&mut round]);
        time
    });
    Row { bytes, behind, times }
}
