//! The programs, and the networks that the product makes of six of them.

use crate::arithmetic::{Operator, Wide};
use crate::network::{Network, Segments, Wire};
use std::str::FromStr;

/// How many sums `wide` and `heavy` have.
pub const SUMS: u32 = 8;
/// How many entries a row of `nest` has.
pub const ENTRIES: u32 = 8;
/// How many comprehensions `deep` has, one after another.
pub const DEPTH: u32 = 20;
/// How many powers `heavy` makes of an element, one of another, of how many factors, and modulo which prime.
pub const POWERS: u32 = 10;
pub const FACTORS: u32 = 11;
pub const MODULUS: i64 = 47;
/// How many times `row` adds a term to an element and then multiplies it by a factor.
pub const PAIRS: u32 = 10;
pub const ROW_TERM: i64 = 1;
pub const ROW_FACTOR: i64 = 3;
/// How many entries a row of `sparse` has.
pub const SPARSE_ENTRIES: u32 = 4;
/// How far the columns of a row of `sparse` lie apart, and those of a row and of the next.
pub const COLUMN_STEP: i64 = 13;
pub const ROW_STEP: i64 = 7;

/// A program, which goes over so many elements as it is told.
#[derive(Clone, Copy, Debug, PartialEq, Eq)]
pub enum Program {
    /// `reduce_add({x * x : x in iota(n)})`
    Squares,
    /// `reduce_add({x * x + 0 : x in iota(n / 8)}) + .. + reduce_add({x * x + 7 : x in iota(n / 8)})`
    Wide,
    /// `reduce_add({reduce_add({(j + i) * (j * 3 + 1) : j in iota(8)}) : i in iota(n / 8)})`: a matrix of rows with 8
    /// entries times a vector, where row i has the entry 3j + 1 at column i + j, and the vector has k at place k.
    Nest,
    /// `reduce_add({x + 1 : x in .. {x + 1 : x in iota(n)} ..})`, with 20 comprehensions
    Deep,
    /// `reduce_add({powers(x + 0) : x in iota(n / 8)}) + .. + reduce_add({powers(x + 7) : x in iota(n / 8)})`, where
    /// `powers(x)` is `power(.. power(x % 47) ..)`, ten times, and `power(x)` is `x * .. * x % 47`, with eleven factors: a
    /// hundred multiplications one after another.
    Heavy,
    /// `reduce_add({((.. (x + 1) * 3 ..) + 1) * 3 : x in iota(n)})`, with 20 operators
    Row,
    /// `let x = tab(iota(n / 4)) in
    /// reduce_add({reduce_add({(j + 1) * (x ! ((i * 7 + j * 13) % (n / 4))) : j in iota(4)}) : i in iota(n / 4)})`: a sparse
    /// matrix of rows with 4 entries times a vector as long as there are rows. Without a row it is 0.
    Sparse,
    /// `let v = tab(iota(n)) in reduce_add({v ! i : i in iota(n)})`
    Indices,
}

impl FromStr for Program {
    type Err = ();

    fn from_str(word: &str) -> Result<Program, ()> {
        match word {
            "squares" => Ok(Program::Squares),
            "wide" => Ok(Program::Wide),
            "nest" => Ok(Program::Nest),
            "deep" => Ok(Program::Deep),
            "heavy" => Ok(Program::Heavy),
            "row" => Ok(Program::Row),
            "sparse" => Ok(Program::Sparse),
            "indices" => Ok(Program::Indices),
            _ => Err(()),
        }
    }
}

impl Program {
    /// Its network, where it has one here. Its nodes stand in the order of the product's.
    pub fn network(self, elements: u32) -> Option<Network> {
        let mut network = Network::default();
        let start = network.source();
        let sum = match self {
            Program::Squares => squares(&mut network, start, elements),
            Program::Wide => wide(&mut network, start, elements / SUMS),
            Program::Nest => nest(&mut network, start, elements / ENTRIES),
            Program::Deep => deep(&mut network, start, elements),
            Program::Heavy => heavy(&mut network, start, elements / SUMS),
            Program::Row => row(&mut network, start, elements),
            // No peer has a node for a vector.
            Program::Sparse | Program::Indices => return None,
        };
        network.print(sum);
        Some(network)
    }
}

fn numbers(network: &mut Network, unit: Wire, count: u32) -> Segments {
    let end = network.constant(unit, Wide::from(count));
    network.iota(end)
}

fn squares(network: &mut Network, start: Wire, count: u32) -> Wire {
    let Segments { flags, elements } = numbers(network, start, count);
    let [for_units, flags] = network.copies(flags);
    let [left, right] = network.copies(elements);
    // The product makes the units for constants in the comprehension, and there are none.
    let units = network.units_of(for_units);
    network.drop_all(units);
    let elements = network.binary(Operator::Multiply, left, right);
    network.sums(Segments { flags, elements })
}

fn wide(network: &mut Network, start: Wire, count: u32) -> Wire {
    added_up(network, start, |network, start, more| {
        squares_and_more(network, start, count, more)
    })
}

/// Eight sums, to the elements of which 0 to 7 are added.
fn added_up(
    network: &mut Network,
    start: Wire,
    sum: impl Fn(&mut Network, Wire, Wide) -> Wire,
) -> Wire {
    let starts: [Wire; SUMS as usize] = network.copies(start);
    let mut so_far = None;
    for (start, more) in starts.into_iter().zip(0..) {
        let sum = sum(network, start, more);
        so_far = Some(match so_far {
            None => sum,
            Some(left) => network.binary(Operator::Add, left, sum),
        });
    }
    so_far.expect("there are eight sums")
}

/// The sum of squares, where a number is added to each.
fn squares_and_more(network: &mut Network, start: Wire, count: u32, more: Wide) -> Wire {
    let Segments { flags, elements } = numbers(network, start, count);
    let [for_units, flags] = network.copies(flags);
    let [left, right] = network.copies(elements);
    let units = network.units_of(for_units);
    let square = network.binary(Operator::Multiply, left, right);
    let more = network.constant(units, more);
    let elements = network.binary(Operator::Add, square, more);
    network.sums(Segments { flags, elements })
}

fn nest(network: &mut Network, start: Wire, rows: u32) -> Wire {
    let Segments { flags, elements } = numbers(network, start, rows);
    let [for_units, row_flags] = network.copies(flags);
    let units = network.units_of(for_units);
    let inner = numbers(network, units, ENTRIES);
    let [for_rows, for_units, flags] = network.copies(inner.flags);
    let [for_columns, for_entries] = network.copies(inner.elements);
    let rows = network.dist(elements, for_rows);
    let units = network.units_of(for_units);
    let [for_three, for_one] = network.copies(units);
    let columns = network.binary(Operator::Add, for_columns, rows);
    let three = network.constant(for_three, 3);
    let entries = network.binary(Operator::Multiply, for_entries, three);
    let one = network.constant(for_one, 1);
    let entries = network.binary(Operator::Add, entries, one);
    let elements = network.binary(Operator::Multiply, columns, entries);
    let sums = network.sums(Segments { flags, elements });
    network.sums(Segments {
        flags: row_flags,
        elements: sums,
    })
}

fn deep(network: &mut Network, start: Wire, count: u32) -> Wire {
    let Segments { flags, elements } = numbers(network, start, count);
    let [flags, for_units @ ..]: [Wire; DEPTH as usize + 1] = network.copies(flags);
    let mut elements = elements;
    for flags in for_units {
        let units = network.units_of(flags);
        let one = network.constant(units, 1);
        elements = network.binary(Operator::Add, elements, one);
    }
    network.sums(Segments { flags, elements })
}

fn heavy(network: &mut Network, start: Wire, count: u32) -> Wire {
    added_up(network, start, |network, start, more| {
        powers(network, start, count, more)
    })
}

/// The sum of powers, where a number is added to each element before.
fn powers(network: &mut Network, start: Wire, count: u32, more: Wide) -> Wire {
    let Segments { flags, elements } = numbers(network, start, count);
    let [for_units, flags] = network.copies(flags);
    let units = network.units_of(for_units);
    let [for_more, for_modulus, for_powers @ ..]: [Wire; POWERS as usize + 2] =
        network.copies(units);
    let more = network.constant(for_more, more);
    let elements = network.binary(Operator::Add, elements, more);
    let mut elements = remainders(network, elements, for_modulus);
    for units in for_powers {
        let [mut power, factors @ ..]: [Wire; FACTORS as usize] = network.copies(elements);
        for factor in factors {
            power = network.binary(Operator::Multiply, power, factor);
        }
        elements = remainders(network, power, units);
    }
    network.sums(Segments { flags, elements })
}

fn remainders(network: &mut Network, elements: Wire, units: Wire) -> Wire {
    let modulus = network.constant(units, Wide::from(MODULUS));
    network.binary(Operator::Remainder, elements, modulus)
}

fn row(network: &mut Network, start: Wire, count: u32) -> Wire {
    let Segments { flags, elements } = numbers(network, start, count);
    let [for_units, flags] = network.copies(flags);
    let units = network.units_of(for_units);
    let for_operators: [Wire; 2 * PAIRS as usize] = network.copies(units);
    let operators = [(Operator::Add, ROW_TERM), (Operator::Multiply, ROW_FACTOR)];
    let mut elements = elements;
    for (units, (operator, number)) in for_operators.into_iter().zip(operators.iter().cycle()) {
        let number = network.constant(units, Wide::from(*number));
        elements = network.binary(*operator, elements, number);
    }
    network.sums(Segments { flags, elements })
}

#[cfg(test)]
mod tests {
    use super::Program;
    use crate::network::Network;

    #[test]
    fn networks_have_the_nodes_and_edges_of_the_product() {
        let sizes = [
            (Program::Squares, 10, 11),
            (Program::Wide, 82, 112),
            (Program::Nest, 21, 27),
            (Program::Deep, 66, 86),
            (Program::Heavy, 1_130, 2_040),
            (Program::Row, 48, 68),
        ];
        for (program, nodes, edges) in sizes {
            let size = |it: Network| (it.places.len(), it.edges);
            assert_eq!(
                program.network(8).map(size),
                Some((nodes, edges)),
                "{program:?}"
            );
        }
    }

    #[test]
    fn edges_lead_to_later_nodes_and_have_two_ends() {
        for program in [
            Program::Squares,
            Program::Wide,
            Program::Nest,
            Program::Deep,
            Program::Heavy,
            Program::Row,
        ] {
            let network = program.network(8).expect("each of these has one");
            let mut writers = vec![None; network.edges];
            let mut readers = vec![0; network.edges];
            for (number, place) in network.places.iter().enumerate() {
                for &edge in &place.inputs {
                    readers[edge] += 1;
                    assert!(writers[edge] < Some(number) && writers[edge].is_some());
                }
                for &edge in &place.outputs {
                    assert_eq!(writers[edge].replace(number), None);
                }
            }
            assert!(readers.iter().all(|&count| count == 1), "{program:?}");
        }
    }
}
