//! The product's drive of one thread, without a proof: all nodes by turns, until a whole pass moves nothing.

use crate::ends::{Queue, Queues};
use crate::network::{answer_of, Network, Place};
use crate::peer::{Answer, Settings};

pub fn run(network: Network, settings: Settings) -> Answer {
    let mut places = network.places;
    let mut edges: Vec<Queue> = (0..network.edges)
        .map(|_| Queue::new(settings.capacity))
        .collect();
    let mut running: Vec<usize> = (0..places.len()).collect();
    loop {
        let pass = pass_over(&mut places, &running, &mut edges, settings.chunk);
        if !pass.moved {
            return answer_of(places.iter().map(|place| &place.node));
        }
        if pass.over {
            running.retain(|&number| !places[number].node.is_over());
        }
    }
}

/// What came of a pass.
struct Pass {
    /// Whether a node made a step.
    moved: bool,
    /// Whether some node made none and makes none again.
    over: bool,
}

fn pass_over(places: &mut [Place], running: &[usize], edges: &mut [Queue], chunk: usize) -> Pass {
    let mut pass = Pass {
        moved: false,
        over: false,
    };
    for &number in running {
        let place = &mut places[number];
        let mut ends = Queues {
            edges,
            inputs: &place.inputs,
            outputs: &place.outputs,
        };
        if place.node.visit(&mut ends, chunk) {
            pass.moved = true;
        } else if place.node.is_over() {
            pass.over = true;
        }
    }
    pass
}

#[cfg(test)]
mod tests {
    use super::run;
    use crate::arithmetic::{Operator, Wide};
    use crate::network::Network;
    use crate::peer::{Answer, Settings};

    const SETTINGS: Settings = Settings {
        chunk: 16,
        capacity: 16,
    };

    #[test]
    fn a_product_beyond_64_bits_is_a_fault() {
        let mut network = Network::default();
        let start = network.source();
        let [left, right] = network.copies(start);
        let left = network.constant(left, Wide::from(i64::MAX));
        let right = network.constant(right, 2);
        let product = network.binary(Operator::Multiply, left, right);
        network.print(product);
        assert_eq!(run(network, SETTINGS), Answer::Fault);
    }

    #[test]
    fn a_network_with_too_small_edges_stalls() {
        // The units for the second sum wait until the first has all its elements.
        let mut network = Network::default();
        let start = network.source();
        let end = network.constant(start, 100);
        let numbers = network.iota(end);
        let [first, second] = network.copies(numbers.flags);
        let [for_first, for_second] = network.copies(numbers.elements);
        let sum = network.sums(crate::network::Segments {
            flags: first,
            elements: for_first,
        });
        let spread = network.dist(sum, second);
        let all = network.binary(Operator::Add, for_second, spread);
        network.print(all);
        assert_eq!(run(network, SETTINGS), Answer::Stalled);
    }
}
