//! Times each entry of the library beside its peers, all in one run, prints what came out as Markdown, and draws how
//! the times grow.

#[allow(dead_code)]
#[path = "../../tests/src/answer.rs"]
mod answer;
mod entry;
mod finding;
mod goals;
#[allow(dead_code)]
#[path = "../../tests/src/library.rs"]
mod library;
mod measure;
mod merging;
mod padded;
#[allow(dead_code)]
#[path = "../../tests/src/part.rs"]
mod part;
mod plot;
#[allow(dead_code)]
#[path = "../../tests/src/random.rs"]
mod random;
mod reading;
mod report;
mod texts;
mod writing;

use entry::Entry;

const ENTRIES: [Entry; 4] = [reading::ENTRY, writing::ENTRY, finding::ENTRY, merging::ENTRY];
const SIZES: [usize; 3] = [64 << 10, 256 << 10, entry::LONGEST];

fn run(entry: &Entry, rounds: usize, directory: &str) {
    let mut longest = (entry.texts)(entry::LONGEST);
    longest.extend((entry.longest)());
    let speeds = measure::beside_peers(entry, &longest, rounds);
    report::speeds(entry, &longest, &speeds);
    report::ratios(entry, &longest, &speeds);
    let growth = measure::growth(entry, &SIZES, 3 * rounds);
    report::growth(entry, &SIZES, &longest, &growth);
    goals::report(entry, &longest, &speeds, &growth);
    let picture = plot::growth(&report::growth_title(entry), &SIZES, &longest, &growth);
    std::fs::write(format!("{directory}/growth-{}.svg", entry.name()), picture).expect("the picture can be written");
}

/// Takes the directory for the pictures, the number of rounds, and the entry where not all are asked for.
fn main() {
    let arguments: Vec<String> = std::env::args().collect();
    let directory = arguments.get(1).expect("a directory");
    let rounds = arguments.get(2).map_or(20, |rounds| rounds.parse().expect("a number of rounds"));
    let is_asked = |entry: &&Entry| arguments.get(3).is_none_or(|name| name == entry.name());
    let asked: Vec<&Entry> = ENTRIES.iter().filter(is_asked).collect();
    assert!(!asked.is_empty(), "there is no entry of that name");
    asked.into_iter().for_each(|entry| run(entry, rounds, directory));
}
