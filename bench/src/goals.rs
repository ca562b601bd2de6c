//! The goals, and whether they are reached.

use crate::entry::Entry;
use crate::measure::Best;
use crate::report;
use crate::texts::Text;

const GROWTH: f64 = 1.3;
const WORST_MILLISECONDS: f64 = 60.0;

fn say(goal: String, found: String, is_reached: bool) {
    println!("- {goal}: {found}, {}", if is_reached { "reached" } else { "NOT reached" });
}

/// The text with the greatest number.
fn worst<'a>(texts: &'a [Text], numbers: impl Iterator<Item = f64>) -> (&'a str, f64) {
    let named = texts.iter().map(|text| text.name).zip(numbers);
    named.max_by(|one, two| one.1.total_cmp(&two.1)).expect("there are texts")
}

pub fn report(entry: &Entry, texts: &[Text], speeds: &[Vec<Best>], growth: &[Vec<f64>]) {
    println!("\n## Goals of {}\n", entry.name());
    for &(text, contestant, goal) in entry.ratios {
        let row = texts.iter().position(|one| one.name == text).expect("a text of that name");
        let column =
            entry.contestants.iter().position(|one| one.name == contestant).expect("a contestant of that name");
        let ratio = report::ratio(&speeds[row], column);
        say(format!("{goal} times {contestant} on {text}"), format!("{ratio:.2}"), ratio >= goal);
    }
    let (text, most) = worst(texts, growth.iter().map(|kind| report::growth_of(kind)));
    say(format!("growth at most {GROWTH}"), format!("{most:.2} on {text}"), most <= GROWTH);
    let (text, slowest) = worst(texts, speeds.iter().map(|bests| 1000.0 * bests[0].time.as_secs_f64()));
    let goal = format!("no text over {WORST_MILLISECONDS} ms");
    say(goal, format!("{slowest:.2} ms on {text}"), slowest <= WORST_MILLISECONDS);
}
