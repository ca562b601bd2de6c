//! One named test: a group of comparisons of the library with the reference, and what failed of them.

const SHOWN_FAILURES: usize = 3;
const SHOWN_BYTES: usize = 160;

/// A test: its name, and what it compares.
pub type Test = (&'static str, fn(&mut Group));

#[derive(Default)]
pub struct Group {
    pub compared: usize,
    pub accepted: usize,
    pub failed: usize,
}

impl Group {
    /// Counts one comparison, and tells of it if it failed and not too many did.
    pub fn judge(&mut self, is_equal: bool, tell: impl FnOnce() -> String) {
        self.compared += 1;
        if is_equal {
            return;
        }
        self.failed += 1;
        if self.failed <= SHOWN_FAILURES {
            println!("  {}", tell());
        }
    }
}

/// A text as a literal of Rust, or its two ends if it is long.
pub fn shown(text: &[u8]) -> String {
    if text.len() <= 2 * SHOWN_BYTES {
        return format!("b\"{}\" of {} bytes", text.escape_ascii(), text.len());
    }
    let (head, tail) = (&text[..SHOWN_BYTES], &text[text.len() - SHOWN_BYTES..]);
    format!("b\"{}\" .. b\"{}\" of {} bytes", head.escape_ascii(), tail.escape_ascii(), text.len())
}
