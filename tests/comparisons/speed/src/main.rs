//! The library's judge and replay through the wrapper, for measuring: `speed judge FILE` says the verdict from the factory start,
//! `speed replay FILE` writes the transcript.

use std::fs::File;
use std::io::{self, Write};
use std::os::fd::AsFd;
use uart_bridge::{judge, Replay, State};

fn main() -> io::Result<()> {
    let arguments: Vec<String> = std::env::args().skip(1).collect();
    let [command, file] = arguments.as_slice() else {
        eprintln!("usage: speed judge FILE | speed replay FILE");
        std::process::exit(2);
    };
    let bytes = std::fs::read(file)?;
    if command == "judge" {
        println!("{:?}", judge(&State::factory_start(), &bytes));
    } else {
        // A plain file, since standard output as Rust has it looks for ends of lines.
        let mut output = File::from(io::stdout().as_fd().try_clone_to_owned()?);
        let mut replay = Replay::new(&bytes);
        let mut chunk = vec![0; 16 * 1024];
        while !replay.is_over() {
            let written = replay.fill(&mut chunk);
            output.write_all(&chunk[..written])?;
        }
    }
    Ok(())
}
