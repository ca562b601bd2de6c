//! The words of the command line.

use std::ffi::OsString;

pub const USAGE: &str = "\
Usage: nib canon [FILE]         write the canonical text
       nib check [FILE]         only say whether the text is accepted
       nib get POINTER [FILE]   write the value that a JSON pointer names, as it stands in the text
       nib merge TARGET PATCH   apply a merge patch and write the canonical text of the result
A FILE that is - or left out is standard input. The exit status is 0, 1 (refused) or 2 (bad usage).
";

/// What is asked for. A file is named by its path, or is `-`.
#[derive(Debug, PartialEq)]
pub enum Command {
    Help,
    Canon(OsString),
    Check(OsString),
    Get(Vec<u8>, OsString),
    Merge(OsString, OsString),
}

/// The command that the words make, or what is wrong with them.
pub fn parse(words: Vec<OsString>) -> Result<Command, String> {
    let (name, rest) = words.split_first().ok_or("no command")?;
    let word = |n: usize| rest.get(n).cloned().unwrap_or_else(|| "-".into());
    let name = name.to_string_lossy();
    match (&*name, rest.len()) {
        ("help" | "--help" | "-h", _) => Ok(Command::Help),
        ("canon", 0 | 1) => Ok(Command::Canon(word(0))),
        ("check", 0 | 1) => Ok(Command::Check(word(0))),
        ("get", 1 | 2) => Ok(Command::Get(word(0).into_encoded_bytes(), word(1))),
        ("merge", 2) if word(0) == "-" && word(1) == "-" => {
            Err("standard input can't be target and patch at once".into())
        }
        ("merge", 2) => Ok(Command::Merge(word(0), word(1))),
        ("canon" | "check", _) => Err(format!("{name} takes one file")),
        ("get", _) => Err("get takes a pointer and one file".into()),
        ("merge", _) => Err("merge takes a target and a patch".into()),
        _ => Err(format!("no command is called {}", crate::shown::quoted(name.as_bytes()))),
    }
}
