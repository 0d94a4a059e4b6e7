//! The peers, and what they answer.

use crate::arithmetic::Wide;
use crate::plain;
use crate::program::Program;
use crate::threads;
use crate::twin;
use crate::vectors;
use std::fmt;
use std::str::FromStr;

/// A way to run the programs.
#[derive(Clone, Copy, Debug, PartialEq, Eq)]
pub enum Peer {
    /// The product's network, in one thread by turns over bounded queues, as the product drives it.
    Twin,
    /// Each operation makes a whole vector.
    Vectors,
    /// A loop that makes no sequence.
    Plain,
    /// The product's network, with a thread for each node and a bounded channel for each edge.
    Threads,
}

/// What the peers over networks are told.
#[derive(Clone, Copy, Debug)]
pub struct Settings {
    /// How many steps a node makes at most before the next node has its turn.
    pub chunk: usize,
    /// How many messages an edge holds at most.
    pub capacity: usize,
}

/// What a run comes to.
#[derive(Clone, Copy, Debug, PartialEq, Eq)]
pub enum Answer {
    Value(Wide),
    /// A number was beyond 64 bits, or divided by 0.
    Fault,
    /// Nodes wait for one another, since an edge is full.
    Stalled,
}

impl Peer {
    /// What the program comes to, or none where the peer goes over networks and the program has none here.
    pub fn run(self, program: Program, elements: u32, settings: Settings) -> Option<Answer> {
        match self {
            Peer::Twin => Some(twin::run(program.network(elements)?, settings)),
            Peer::Threads => Some(threads::run(program.network(elements)?, settings.capacity)),
            Peer::Vectors => Some(Answer::of(vectors::run(program, elements))),
            Peer::Plain => Some(Answer::of(plain::run(program, elements))),
        }
    }
}

impl Answer {
    fn of(value: Option<i64>) -> Answer {
        match value {
            Some(number) => Answer::Value(number.into()),
            None => Answer::Fault,
        }
    }
}

impl fmt::Display for Answer {
    fn fmt(&self, formatter: &mut fmt::Formatter<'_>) -> fmt::Result {
        match self {
            Answer::Value(number) => number.fmt(formatter),
            Answer::Fault => formatter.write_str("fault"),
            Answer::Stalled => formatter.write_str("stalled"),
        }
    }
}

impl FromStr for Peer {
    type Err = ();

    fn from_str(word: &str) -> Result<Peer, ()> {
        match word {
            "twin" => Ok(Peer::Twin),
            "vectors" => Ok(Peer::Vectors),
            "plain" => Ok(Peer::Plain),
            "threads" => Ok(Peer::Threads),
            _ => Err(()),
        }
    }
}

#[cfg(test)]
mod tests {
    use super::{Answer, Peer, Settings};
    use crate::program::Program;

    const PEERS: [Peer; 4] = [Peer::Twin, Peer::Vectors, Peer::Plain, Peer::Threads];

    /// What each peer answers, which is to be the same at several settings.
    fn answers(program: Program, elements: u32) -> Vec<Option<Answer>> {
        let settings = [(16, 256), (1, 2), (7, 3)];
        let run = |peer: Peer| {
            settings
                .map(|(chunk, capacity)| peer.run(program, elements, Settings { chunk, capacity }))
        };
        PEERS.into_iter().flat_map(run).collect()
    }

    #[test]
    fn all_peers_give_the_value() {
        for elements in [0, 8, 200] {
            let n = i128::from(elements);
            let rows = n / 8;
            let squares = |to: i128| (0..to).map(|x| x * x).sum::<i128>();
            let entry = |i: i128, j: i128| (j + i) * (j * 3 + 1);
            let powers = |x: i128| (0..10).fold(x % 47, |x, _| x.pow(11) % 47);
            let row = |x: i128| (0..10).fold(x, |x, _| (x + 1) * 3);
            let values = [
                (Program::Squares, squares(n)),
                (Program::Wide, 8 * squares(rows) + 28 * rows),
                (Program::Nest, (0..n).map(|k| entry(k / 8, k % 8)).sum()),
                (Program::Deep, (0..n).map(|x| x + 20).sum()),
                (
                    Program::Heavy,
                    (0..n).map(|k| powers(k % rows + k / rows)).sum(),
                ),
                (Program::Row, (0..n).map(row).sum()),
            ];
            for (program, value) in values {
                for answer in answers(program, elements) {
                    let wanted = Some(Answer::Value(value));
                    assert_eq!(answer, wanted, "{program:?} of {elements}");
                }
            }
        }
    }

    #[test]
    fn programs_with_vectors_have_values_without_a_network() {
        let settings = Settings {
            chunk: 16,
            capacity: 256,
        };
        for n in [0, 1, 9, 200] {
            let (elements, rows) = (i128::from(n), i128::from(n / 4));
            let entry = |i: i128, j: i128| (j + 1) * ((i * 7 + j * 13) % rows);
            let entries = (0..rows * 4).map(|k| entry(k / 4, k % 4));
            let values = [
                (Program::Indices, (0..elements).sum()),
                (Program::Sparse, entries.sum()),
            ];
            for (program, value) in values {
                for peer in [Peer::Vectors, Peer::Plain] {
                    let answer = peer.run(program, n, settings);
                    assert_eq!(answer, Some(Answer::Value(value)), "{program:?} of {n}");
                }
                assert_eq!(Peer::Twin.run(program, n, settings), None);
                assert_eq!(Peer::Threads.run(program, n, settings), None);
            }
        }
    }

    #[test]
    fn answers_are_lines() {
        assert_eq!(Answer::Value(-3).to_string(), "-3");
        assert_eq!(Answer::Fault.to_string(), "fault");
        assert_eq!(Answer::Stalled.to_string(), "stalled");
    }
}
