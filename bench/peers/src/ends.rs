//! What a node sees of its edges.

use crate::message::Message;
use std::collections::VecDeque;

/// The ends of the edges of one node, by the numbers of its inputs and outputs.
pub trait Ends {
    /// The next message of this input. None where none is there.
    fn take(&mut self, input: usize) -> Option<Message>;

    /// Whether this output takes a message now.
    fn has_room(&self, output: usize) -> bool;

    /// Puts a message to an output that has room.
    fn put(&mut self, output: usize, message: Message);
}

/// An edge in one thread, which holds at most so many messages.
pub struct Queue {
    messages: VecDeque<Message>,
    capacity: usize,
}

impl Queue {
    pub fn new(capacity: usize) -> Queue {
        Queue {
            messages: VecDeque::with_capacity(capacity),
            capacity,
        }
    }
}

/// The ends of a node among the edges of its network.
pub struct Queues<'a> {
    pub edges: &'a mut [Queue],
    pub inputs: &'a [usize],
    pub outputs: &'a [usize],
}

impl Ends for Queues<'_> {
    #[inline(always)]
    fn take(&mut self, input: usize) -> Option<Message> {
        self.edges[self.inputs[input]].messages.pop_front()
    }

    #[inline(always)]
    fn has_room(&self, output: usize) -> bool {
        let edge = &self.edges[self.outputs[output]];
        edge.messages.len() < edge.capacity
    }

    #[inline(always)]
    fn put(&mut self, output: usize, message: Message) {
        self.edges[self.outputs[output]].messages.push_back(message);
    }
}

#[cfg(test)]
mod tests {
    use super::{Ends, Queue, Queues};
    use crate::message::{Item, Message};

    #[test]
    fn a_queue_is_first_in_first_out_and_bounded() {
        let mut edges = [Queue::new(2)];
        let mut ends = Queues {
            edges: &mut edges,
            inputs: &[0],
            outputs: &[0],
        };
        assert_eq!(ends.take(0), None);
        ends.put(0, Message::Item(Item::Unit));
        assert!(ends.has_room(0));
        ends.put(0, Message::End);
        assert!(!ends.has_room(0));
        assert_eq!(ends.take(0), Some(Message::Item(Item::Unit)));
        assert_eq!(ends.take(0), Some(Message::End));
    }
}
