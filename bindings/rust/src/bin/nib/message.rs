//! A refusal as a message that a person can act on.

use crate::excerpt::{excerpt, line_and_column};
use crate::source::Source;
use crate::{detail, missing};
use nibrocate::{Document, Input, Kind, Refusal};

/// The message for a refusal of this source, or of the result.
pub fn of(refusal: &Refusal, source: &Source) -> String {
    told(refusal, source, detail::of(refusal, source))
}

/// The message for a refusal of a JSON pointer into this document.
pub fn of_pointer(refusal: &Refusal, pointer: &[u8], document: &Document) -> String {
    let detail = match refusal.kind() {
        Kind::NothingThere => missing::token(pointer, refusal.place(), document),
        _ => None,
    };
    told(refusal, &Source { name: "pointer".into(), text: pointer.to_vec(), size: None }, detail)
}

/// Place, name, detail, number; the line with a caret; the rule that was broken.
fn told(refusal: &Refusal, source: &Source, detail: Option<String>) -> String {
    let (number, place) = (refusal.number(), refusal.place());
    let detail = detail.map_or(String::new(), |detail| format!(": {detail}"));
    let what = format!("{}{detail}", refusal.name());
    let rule = refusal.sentence();
    if refusal.input() == Input::Output {
        return format!("nib: {what} (refusal {number})\n{rule}\n");
    }
    let (line, column) = line_and_column(&source.text, place);
    let around = if refusal.kind() == Kind::TextTooLong { String::new() } else { excerpt(&source.text, place) };
    format!("{}:{line}:{column}: {what} (refusal {number}, byte {place})\n{around}{rule}\n", source.name)
}
