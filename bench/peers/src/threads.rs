//! A thread for each node of the product's network, and a bounded channel for each edge.

use crate::ends::Ends;
use crate::message::Message;
use crate::network::{answer_of, Network, Place};
use crate::node::Node;
use crate::peer::Answer;
use std::sync::mpsc::{sync_channel, Receiver, SyncSender};
use std::thread;

/// The ends of one node, which wait for messages and for room.
struct Channels {
    inputs: Vec<Receiver<Message>>,
    outputs: Vec<SyncSender<Message>>,
    /// Whether a reader was gone, as it is after a fault.
    cut: bool,
}

impl Ends for Channels {
    fn take(&mut self, input: usize) -> Option<Message> {
        self.inputs[input].recv().ok()
    }

    fn has_room(&self, _: usize) -> bool {
        !self.cut
    }

    fn put(&mut self, output: usize, message: Message) {
        self.cut |= self.outputs[output].send(message).is_err();
    }
}

pub fn run(network: Network, capacity: usize) -> Answer {
    let workers = dealt(network, capacity);
    let nodes: Vec<Node> = thread::scope(|scope| {
        let running: Vec<_> = workers
            .into_iter()
            .map(|(node, channels)| scope.spawn(|| to_the_end(node, channels)))
            .collect();
        running
            .into_iter()
            .map(|thread| thread.join().expect("a node does not panic"))
            .collect()
    });
    answer_of(nodes.iter())
}

/// The node when it can make no step. Its channels are let go, so that its neighbours go on.
fn to_the_end(mut node: Node, mut channels: Channels) -> Node {
    node.visit(&mut channels, usize::MAX);
    node
}

/// Each node with its ends.
fn dealt(network: Network, capacity: usize) -> Vec<(Node, Channels)> {
    let (mut writers, mut readers): (Vec<_>, Vec<_>) = (0..network.edges)
        .map(|_| sync_channel(capacity))
        .map(|(writer, reader)| (Some(writer), Some(reader)))
        .unzip();
    let with_ends = |Place {
                         node,
                         inputs,
                         outputs,
                     }| {
        let channels = Channels {
            inputs: taken(&mut readers, inputs),
            outputs: taken(&mut writers, outputs),
            cut: false,
        };
        (node, channels)
    };
    network.places.into_iter().map(with_ends).collect()
}

/// The ends of these edges, each of which has one owner.
fn taken<E>(ends: &mut [Option<E>], edges: Vec<usize>) -> Vec<E> {
    edges
        .into_iter()
        .filter_map(|edge| ends[edge].take())
        .collect()
}

#[cfg(test)]
mod tests {
    use super::run;
    use crate::arithmetic::{Operator, Wide};
    use crate::network::Network;
    use crate::peer::Answer;

    #[test]
    fn a_fault_ends_all_threads() {
        let mut network = Network::default();
        let start = network.source();
        let [for_count, for_step] = network.copies(start);
        let count = network.constant(for_count, 1_000_000_000);
        let numbers = network.iota(count);
        let step = network.constant(for_step, Wide::from(i64::MAX));
        network.drop_all(numbers.flags);
        // There is one step, and the second element finds that their stream has ended.
        let sum = network.binary(Operator::Add, numbers.elements, step);
        network.print(sum);
        assert_eq!(run(network, 4), Answer::Fault);
    }
}
