//! `reference replay [FILE]` writes a session's transcript; `reference judge [FILE]` judges the
//! file's bytes from the factory start. Without a file, the standard input is read.

use reference::{factory_start, judge, replay, Judgement};
use std::io::{self, Read, Write};
use std::process::ExitCode;

fn read(file: Option<&String>) -> io::Result<Vec<u8>> {
    match file {
        Some(path) => std::fs::read(path),
        None => {
            let mut bytes = Vec::new();
            io::stdin().read_to_end(&mut bytes)?;
            Ok(bytes)
        }
    }
}

fn verdict(bytes: &[u8]) -> String {
    match judge(&factory_start(), bytes) {
        Judgement::Whole => "whole\n".to_string(),
        Judgement::Open => "open\n".to_string(),
        Judgement::WrongAt(k, code) => format!("wrong at {k} ({code:02x})\n"),
        Judgement::Refused(number) => format!("refused {number}\n"),
    }
}

fn main() -> ExitCode {
    let arguments: Vec<String> = std::env::args().skip(1).collect();
    let (command, file) = match arguments.as_slice() {
        [command] => (command.as_str(), None),
        [command, file] => (command.as_str(), Some(file)),
        _ => ("", None),
    };
    if command != "replay" && command != "judge" {
        eprintln!("usage: reference replay [FILE] | reference judge [FILE]");
        return ExitCode::from(2);
    }
    let written = read(file).and_then(|bytes| {
        let output = if command == "replay" { replay(&bytes) } else { verdict(&bytes).into_bytes() };
        io::stdout().write_all(&output)
    });
    match written {
        Ok(()) => ExitCode::SUCCESS,
        Err(error) => {
            eprintln!("reference: {error}");
            ExitCode::FAILURE
        }
    }
}
