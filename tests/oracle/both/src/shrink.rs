//! A smaller feed with some difference: steps are taken away, then packets are cut and their bytes made 0, within a fixed budget
//! of runs and time.
use crate::compare::{Canvas, run};
use crate::covered::Covered;
use crate::differ::caught;
use crate::feed::{Feed, Step};
use std::time::{Duration, Instant};

const RUNS: usize = 6000;
const TIME: Duration = Duration::from_secs(60);

struct Shrinker<'a> {
    canvas: &'a Canvas,
    left: usize,
    began: Instant,
    best: Feed,
    told: String,
}

impl Shrinker<'_> {
    /// Takes a feed over where it still differs.
    fn try_one(&mut self, feed: Feed) -> bool {
        if self.left == 0 || self.began.elapsed() > TIME {
            return false;
        }
        self.left -= 1;
        let Err(told) = caught(|| run(&feed, self.canvas, &mut Covered::default(), true)) else { return false };
        (self.best, self.told) = (feed, told);
        true
    }

    fn without(&self, at: usize, n: usize) -> Feed {
        let mut feed = self.best.clone();
        feed.steps.drain(at..(at + n).min(feed.steps.len()));
        feed
    }

    fn remove_steps(&mut self) {
        let mut n = self.best.steps.len().next_power_of_two();
        while n > 0 {
            let mut at = self.best.steps.len().saturating_sub(n);
            loop {
                if at < self.best.steps.len() {
                    let feed = self.without(at, n);
                    self.try_one(feed);
                }
                if at == 0 {
                    break;
                }
                at = at.saturating_sub(n);
            }
            n /= 2;
        }
    }

    fn data_len(&self, i: usize) -> usize {
        match &self.best.steps[i] {
            Step::Packet(_, b) => b.len(),
            _ => 0,
        }
    }

    fn with(&self, i: usize, change: impl FnOnce(&mut Vec<u8>)) -> Feed {
        let mut feed = self.best.clone();
        if let Step::Packet(_, b) = &mut feed.steps[i] {
            change(b);
        }
        feed
    }

    fn shorten(&mut self, i: usize) {
        let mut n = self.data_len(i).next_power_of_two();
        while n > 0 {
            while self.data_len(i) >= n {
                let feed = self.with(i, |b| b.truncate(b.len() - n));
                if !self.try_one(feed) {
                    break;
                }
            }
            n /= 2;
        }
    }

    fn make_zero(&mut self, i: usize) {
        let mut n = self.data_len(i).next_power_of_two();
        while n > 0 {
            for at in (0..self.data_len(i)).step_by(n) {
                let end = (at + n).min(self.data_len(i));
                let Step::Packet(_, b) = &self.best.steps[i] else { return };
                if b[at..end].iter().any(|&x| x != 0) {
                    let feed = self.with(i, |b| b[at..end].fill(0));
                    self.try_one(feed);
                }
            }
            n /= 2;
        }
    }
}

/// The smallest feed found, and its difference.
pub fn shrink(feed: &Feed, told: String, canvas: &Canvas) -> (Feed, String) {
    let mut s = Shrinker { canvas, left: RUNS, began: Instant::now(), best: feed.clone(), told };
    // with a look behind each step the difference may come sooner, or not at all where a look was needed just there
    s.try_one(feed.clone());
    loop {
        let before = s.left;
        let size = s.best.steps.len();
        s.remove_steps();
        if s.best.steps.len() == size || s.left == 0 || before == s.left {
            break;
        }
    }
    for i in 0..s.best.steps.len() {
        s.shorten(i);
        s.make_zero(i);
    }
    s.remove_steps();
    (s.best, s.told)
}
