//! `nib`: canonical texts, checks, look-ups and merges on the command line. A refusal is told with its place, the line
//! and a caret.

mod arguments;
mod detail;
mod excerpt;
mod expected;
mod message;
mod missing;
mod open;
mod shown;
mod source;
mod units;

use arguments::{parse, Command, USAGE};
use nibrocate::{canonical, merge, Document, Input};
use source::Source;
use std::io::{stderr, stdout, Write};
use std::process::ExitCode;

fn main() -> ExitCode {
    let command = match parse(std::env::args_os().skip(1).collect()) {
        Ok(command) => command,
        Err(fault) => return fail(&format!("nib: {fault}; see nib help\n"), 2),
    };
    match run(command).and_then(|result| print(&result)) {
        Ok(()) => ExitCode::SUCCESS,
        Err(message) => fail(&message, 1),
    }
}

/// What the command writes, or the message that says why it can't.
fn run(command: Command) -> Result<Vec<u8>, String> {
    match command {
        Command::Help => Ok(USAGE.into()),
        Command::Canon(file) => {
            let source = Source::load(&file)?;
            canonical(&source.text).map(line).map_err(|refusal| message::of(&refusal, &source))
        }
        Command::Check(file) => {
            let source = Source::load(&file)?;
            Document::read(&source.text).map(|_| Vec::new()).map_err(|refusal| message::of(&refusal, &source))
        }
        Command::Get(pointer, file) => get(&pointer, &Source::load(&file)?),
        Command::Merge(target, patch) => {
            let (target, patch) = (Source::load(&target)?, Source::load(&patch)?);
            merge(&target.text, &patch.text).map(line).map_err(|refusal| {
                let source = if refusal.input() == Input::Patch { &patch } else { &target };
                message::of(&refusal, source)
            })
        }
    }
}

/// The value that the pointer names, as the text spells it.
fn get(pointer: &[u8], source: &Source) -> Result<Vec<u8>, String> {
    let document = Document::read(&source.text).map_err(|refusal| message::of(&refusal, source))?;
    let value = document.get(pointer).map_err(|refusal| message::of_pointer(&refusal, pointer, &document))?;
    Ok(line(value.bytes().to_vec()))
}

fn line(mut text: Vec<u8>) -> Vec<u8> {
    text.push(b'\n');
    text
}

fn print(result: &[u8]) -> Result<(), String> {
    let mut out = stdout();
    out.write_all(result).and_then(|()| out.flush()).map_err(|fault| format!("nib: standard output: {fault}\n"))
}

/// Tells a message; where even that fails, only the status can.
fn fail(message: &str, status: u8) -> ExitCode {
    let _ = stderr().write_all(message.as_bytes());
    ExitCode::from(status)
}
