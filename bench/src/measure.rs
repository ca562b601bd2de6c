//! Best times of many rounds. All that is to be compared takes turns inside a round, so that a slow moment of the
//! machine falls on all alike.

use crate::entry::{Contestant, Entry, Lent};
use crate::texts::Text;
use std::time::{Duration, Instant};

/// The best time of a contestant on a text, and whether it accepted the text.
#[derive(Clone, Copy)]
pub struct Best {
    pub time: Duration,
    pub is_accepted: bool,
}

impl Best {
    const NONE: Best = Best { time: Duration::MAX, is_accepted: false };

    fn take(&mut self, contestant: &Contestant, text: &Text, lent: &mut Lent) {
        let start = Instant::now();
        self.is_accepted = (contestant.accepts)(text, lent);
        self.time = self.time.min(start.elapsed());
    }

    /// Stops where the library is wrong about a text, since its times mean nothing then.
    fn insist(&self, text: &Text) {
        assert!(self.is_accepted == text.is_accepted, "the library is wrong about the text `{}`", text.name);
    }

    pub fn nanoseconds_per_byte(&self, text: &Text) -> f64 {
        self.time.as_nanos() as f64 / text.bytes() as f64
    }
}

/// A row for each text with the best of each contestant.
pub fn beside_peers(entry: &Entry, texts: &[Text], rounds: usize) -> Vec<Vec<Best>> {
    let mut lent = Lent::for_texts(texts);
    let mut best = vec![vec![Best::NONE; entry.contestants.len()]; texts.len()];
    for _ in 0..rounds {
        for (text, row) in texts.iter().zip(&mut best) {
            for (contestant, one) in entry.contestants.iter().zip(row) {
                one.take(contestant, text, &mut lent);
            }
        }
    }
    texts.iter().zip(&best).for_each(|(text, row)| row[0].insist(text));
    best
}

/// A row for each kind of text with the library's nanoseconds for a byte at each size.
pub fn growth(entry: &Entry, sizes: &[usize], rounds: usize) -> Vec<Vec<f64>> {
    let texts: Vec<Text> = sizes.iter().flat_map(|&size| (entry.texts)(size)).collect();
    let mut lent = Lent::for_texts(&texts);
    let mut best = vec![Best::NONE; texts.len()];
    for _ in 0..rounds {
        for (text, one) in texts.iter().zip(&mut best) {
            one.take(&entry.contestants[0], text, &mut lent);
            one.insist(text);
        }
    }
    let times: Vec<f64> = best.iter().zip(&texts).map(|(one, text)| one.nanoseconds_per_byte(text)).collect();
    let kinds = texts.len() / sizes.len();
    (0..kinds).map(|kind| times.iter().skip(kind).step_by(kinds).copied().collect()).collect()
}
