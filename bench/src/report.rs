//! The tables of the report, as Markdown.

use crate::entry::Entry;
use crate::measure::Best;
use crate::texts::Text;

fn row(first: &str, cells: impl Iterator<Item = String>) {
    println!("| {first} | {} |", cells.collect::<Vec<_>>().join(" | "));
}

fn head(title: &str, first: &str, columns: &[String]) {
    println!("\n## {title}\n");
    row(first, columns.iter().cloned());
    row("---", columns.iter().map(|_| "---:".into()));
}

/// Megabytes of text in a second. A star marks an answer that isn't the library's.
pub fn speeds(entry: &Entry, texts: &[Text], speeds: &[Vec<Best>]) {
    let names = entry.contestants.iter().map(|contestant| contestant.name.into());
    let columns: Vec<String> = std::iter::once("bytes".into()).chain(names).collect();
    head(&format!("MB/s (* where the text is judged unlike {} does)", entry.name()), "text", &columns);
    for (text, bests) in texts.iter().zip(speeds) {
        let cell = |best: &Best| {
            let star = if best.is_accepted == bests[0].is_accepted { "" } else { "*" };
            format!("{:.0}{star}", 1000.0 / best.nanoseconds_per_byte(text))
        };
        row(text.name, std::iter::once(text.bytes().to_string()).chain(bests.iter().map(cell)));
    }
}

/// How many times as fast the library is as a contestant.
pub fn ratio(bests: &[Best], contestant: usize) -> f64 {
    bests[contestant].time.as_secs_f64() / bests[0].time.as_secs_f64()
}

pub fn ratios(entry: &Entry, texts: &[Text], speeds: &[Vec<Best>]) {
    let columns: Vec<String> = entry.contestants[1..].iter().map(|contestant| contestant.name.into()).collect();
    head(&format!("{}'s speed as a multiple of each", entry.name()), "text", &columns);
    for (text, bests) in texts.iter().zip(speeds) {
        row(text.name, (1..bests.len()).map(|contestant| format!("{:.2}", ratio(bests, contestant))));
    }
}

/// The last size against the first.
pub fn growth_of(kind: &[f64]) -> f64 {
    kind[kind.len() - 1] / kind[0]
}

pub fn growth_title(entry: &Entry) -> String {
    format!("{}'s nanoseconds for a byte as texts grow", entry.name())
}

pub fn growth(entry: &Entry, sizes: &[usize], texts: &[Text], growth: &[Vec<f64>]) {
    let sizes = sizes.iter().map(|size| format!("{} KiB", size >> 10));
    let columns: Vec<String> = sizes.chain(["growth".into()]).collect();
    head(&growth_title(entry), "text", &columns);
    for (text, kind) in texts.iter().zip(growth) {
        let times = kind.iter().map(|time| format!("{time:.3}"));
        row(text.name, times.chain([format!("{:.2}", growth_of(kind))]));
    }
}
