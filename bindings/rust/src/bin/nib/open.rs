//! What is open where a text breaks off. The text up to there can be continued, so brackets and quotes alone tell.

use std::ops::Range;

/// An array or object that is open, where it opened, and where its names stand so far, quotes included.
pub struct Container {
    pub at: usize,
    pub names: Vec<Range<usize>>,
}

/// What is open at the end of a text's beginning.
pub struct Open {
    /// The containers, the innermost last.
    pub containers: Vec<Container>,
    /// Where the string that isn't closed starts.
    pub string: Option<usize>,
}

impl Open {
    /// What is open at the end of `start`, which is the beginning of some text.
    pub fn at_end(start: &[u8]) -> Open {
        let mut open = Open { containers: Vec::new(), string: None };
        // The last of `{ [ , : ] }`: a string in an object is a name unless that is `:`.
        let mut mark = 0;
        let mut at = 0;
        while at < start.len() {
            match start[at] {
                b'"' => match closing_quote(start, at) {
                    Some(close) => {
                        open.note_name(start, mark, at..close + 1);
                        at = close;
                    }
                    None => return Open { string: Some(at), ..open },
                },
                b'{' | b'[' => open.containers.push(Container { at, names: Vec::new() }),
                b'}' | b']' => drop(open.containers.pop()),
                _ => {}
            }
            mark = if b"{[,:]}".contains(&start[at]) { start[at] } else { mark };
            at += 1;
        }
        open
    }

    fn note_name(&mut self, start: &[u8], mark: u8, string: Range<usize>) {
        if let Some(container) = self.containers.last_mut() {
            if start[container.at] == b'{' && mark != b':' {
                container.names.push(string);
            }
        }
    }
}

/// Where the string that opens at `at` closes.
fn closing_quote(text: &[u8], at: usize) -> Option<usize> {
    let mut close = at + 1;
    while *text.get(close)? != b'"' {
        close += if text[close] == b'\\' { 2 } else { 1 };
    }
    Some(close)
}

#[cfg(test)]
mod tests {
    use super::*;

    #[test]
    fn only_the_names_of_each_open_object_are_kept() {
        let open = Open::at_end(br#"{"a":"b","c":[{"d":1},"e",{"f\"":{},"g":"#);
        let found: Vec<_> = open.containers.into_iter().map(|each| (each.at, each.names)).collect();
        assert_eq!(found, [(0, vec![1..4, 9..12]), (13, vec![]), (26, vec![27..32, 36..39])]);
        assert_eq!(open.string, None);
    }

    #[test]
    fn an_open_string_is_found() {
        assert_eq!(Open::at_end(br#"["a","\""#).string, Some(5));
        assert_eq!(Open::at_end(br#""\"#).string, Some(0));
    }
}
