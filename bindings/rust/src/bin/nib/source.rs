//! A text and where it comes from.

use nibrocate::TEXT_BYTES;
use std::ffi::OsStr;
use std::fs::File;
use std::io::{stdin, Read};

pub struct Source {
    /// How messages call it.
    pub name: String,
    /// The whole text, or as much of it as shows that it is too long.
    pub text: Vec<u8>,
    /// How long it is, where that is known before it is read.
    pub size: Option<u64>,
}

impl Source {
    /// Reads a file, or standard input where it is called `-`.
    pub fn load(file: &OsStr) -> Result<Source, String> {
        if file == "-" {
            return Source::drain("<stdin>".into(), stdin(), None);
        }
        let name = file.to_string_lossy().into_owned();
        let opened = File::open(file).map_err(|fault| format!("nib: {name}: {fault}\n"))?;
        let size = opened.metadata().ok().filter(|about| about.is_file()).map(|about| about.len());
        Source::drain(name, opened, size)
    }

    /// Reads to the end, or to one byte more than a text may have.
    fn drain(name: String, from: impl Read, size: Option<u64>) -> Result<Source, String> {
        let mut text = Vec::new();
        match from.take(TEXT_BYTES as u64 + 1).read_to_end(&mut text) {
            Ok(_) => Ok(Source { name, text, size }),
            Err(fault) => Err(format!("nib: {name}: {fault}\n")),
        }
    }
}
