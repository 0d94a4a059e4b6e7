//! Runs one of eight programs by one of four peers of the product, none of which is proved, and prints the answer. The
//! last two, which have vectors, run by the peers `vectors` and `plain` alone.
//!
//!     peers PEER PROGRAM ELEMENTS CHUNK CAPACITY
//!
//! Only the peer `twin` reads the chunk, and only `twin` and `threads` read the capacity.

mod arithmetic;
mod ends;
mod message;
mod network;
mod node;
mod peer;
mod plain;
mod program;
mod threads;
mod twin;
mod vectors;
mod workers;

use peer::{Peer, Settings};
use program::Program;
use std::env;
use std::process::ExitCode;
use std::str::FromStr;

const USAGE: &str = "\
peers twin|vectors|plain|threads squares|wide|nest|deep|heavy|row ELEMENTS CHUNK CAPACITY
peers vectors|plain sparse|indices ELEMENTS CHUNK CAPACITY";

fn main() -> ExitCode {
    let words: Vec<String> = env::args().skip(1).collect();
    match answered(&words) {
        Some(line) => {
            println!("{line}");
            ExitCode::SUCCESS
        }
        None => {
            eprintln!("{USAGE}");
            ExitCode::from(2)
        }
    }
}

/// The line that these words ask for, or none where they ask for nothing.
fn answered(words: &[String]) -> Option<String> {
    let [peer, program, elements, chunk, capacity] = words else {
        return None;
    };
    let settings = Settings {
        chunk: positive(chunk)?,
        capacity: positive(capacity)?,
    };
    let peer: Peer = peer.parse().ok()?;
    let program: Program = program.parse().ok()?;
    let answer = peer.run(program, u32::from_str(elements).ok()?, settings)?;
    Some(answer.to_string())
}

fn positive(word: &str) -> Option<usize> {
    word.parse().ok().filter(|&number| number > 0)
}

#[cfg(test)]
mod tests {
    use super::answered;

    fn line(text: &str) -> Option<String> {
        let words: Vec<String> = text.split(' ').map(String::from).collect();
        answered(&words)
    }

    #[test]
    fn words_are_answered() {
        assert_eq!(line("plain squares 4 16 256").as_deref(), Some("14"));
        assert_eq!(line("twin deep 8 16 256").as_deref(), Some("188"));
    }

    #[test]
    fn other_words_are_not() {
        for text in [
            "plain",
            "none squares 4 16 256",
            "plain none 4 16 256",
            "plain squares -1 16 256",
            "twin squares 4 0 256",
            "twin squares 4 16 0",
            "twin sparse 4 16 256",
            "threads indices 4 16 256",
        ] {
            assert_eq!(line(text), None, "{text}");
        }
    }
}
