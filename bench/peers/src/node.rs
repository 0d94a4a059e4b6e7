//! Nodes: workers that do one instance after another, until their streams end.

use crate::arithmetic::Wide;
use crate::ends::Ends;
use crate::message::{Item, Message};
use crate::workers::{Binary, Const, Dist, Fork, Iota, Print, Reduce, Sink, Source, UnitsOf};

/// What a worker does next.
#[derive(Clone, Copy, Debug, PartialEq, Eq)]
pub enum Ask {
    /// It reads the first item of an instance, at input 0.
    Begin,
    /// It reads an item at this input.
    Take(usize),
    /// It writes an item to this output.
    Give(usize),
    /// It does nothing more, and its outputs end.
    Finish,
}

/// A worker met an item that it cannot go on from.
#[derive(Clone, Copy, Debug, PartialEq, Eq)]
pub struct Fault;

/// What a node does between the ends of its streams.
pub trait Worker {
    fn inputs(&self) -> usize;
    fn outputs(&self) -> usize;
    fn ask(&self) -> Ask;

    /// Takes the item that it asked for.
    fn take(&mut self, _: Item) -> Result<(), Fault> {
        unreachable!("it has no input")
    }

    /// The item that it asked to write.
    fn give(&mut self) -> Item {
        unreachable!("it has no output")
    }
}

/// How far a node is.
#[derive(Clone, Copy, Debug, PartialEq, Eq)]
enum Phase {
    Working,
    /// The inputs below this one have ended, and its end comes next.
    Closing(usize),
    /// All inputs have ended. The end of this output comes next; there may be none left.
    Ending(usize),
    Faulted,
}

/// A worker, and how far it is.
pub struct Framed<W> {
    worker: W,
    phase: Phase,
}

impl<W: Worker> Framed<W> {
    fn new(worker: W) -> Framed<W> {
        Framed {
            worker,
            phase: Phase::Working,
        }
    }

    fn is_over(&self) -> bool {
        match self.phase {
            Phase::Ending(output) => output >= self.worker.outputs(),
            Phase::Faulted => true,
            Phase::Working | Phase::Closing(_) => false,
        }
    }

    // A function of its own for each worker keeps its state in registers.
    #[inline(never)]
    fn visit<E: Ends>(&mut self, ends: &mut E, chunk: usize) -> bool {
        let made = match self.phase {
            Phase::Working => self.work(ends, chunk),
            _ => 0,
        };
        match self.phase {
            Phase::Working => made > 0,
            _ => self.close(ends, chunk - made) || made > 0,
        }
    }

    /// Steps while it works, at most `chunk`. How many it made.
    #[inline(always)]
    fn work<E: Ends>(&mut self, ends: &mut E, chunk: usize) -> usize {
        for made in 0..chunk {
            match self.worker.ask() {
                Ask::Begin => match ends.take(0) {
                    None => return made,
                    Some(Message::Item(item)) => self.give_item(item),
                    Some(Message::End) => self.phase = self.closing_after(0),
                },
                Ask::Take(input) => match ends.take(input) {
                    None => return made,
                    Some(Message::Item(item)) => self.give_item(item),
                    Some(Message::End) => self.phase = Phase::Faulted,
                },
                Ask::Give(output) => {
                    if !ends.has_room(output) {
                        return made;
                    }
                    ends.put(output, Message::Item(self.worker.give()));
                }
                Ask::Finish => {
                    self.phase = Phase::Ending(0);
                    return made;
                }
            }
            if self.phase != Phase::Working {
                return made + 1;
            }
        }
        chunk
    }

    #[inline(always)]
    fn give_item(&mut self, item: Item) {
        if self.worker.take(item).is_err() {
            self.phase = Phase::Faulted;
        }
    }

    fn closing_after(&self, input: usize) -> Phase {
        if input + 1 < self.worker.inputs() {
            Phase::Closing(input + 1)
        } else {
            Phase::Ending(0)
        }
    }

    /// Steps behind its work, at most `left`. Whether it made one.
    #[inline(never)]
    fn close<E: Ends>(&mut self, ends: &mut E, left: usize) -> bool {
        for made in 0..left {
            match self.phase {
                Phase::Closing(input) => match ends.take(input) {
                    None => return made > 0,
                    Some(Message::End) => self.phase = self.closing_after(input),
                    Some(Message::Item(_)) => self.phase = Phase::Faulted,
                },
                Phase::Ending(output) if output < self.worker.outputs() => {
                    if !ends.has_room(output) {
                        return made > 0;
                    }
                    ends.put(output, Message::End);
                    self.phase = Phase::Ending(output + 1);
                }
                _ => return made > 0,
            }
        }
        left > 0
    }
}

/// Declares the nodes of all kinds of workers, and what is done of each kind alike.
macro_rules! nodes {
    ($($kind:ident),*) => {
        /// A node of any kind.
        pub enum Node {
            $($kind(Framed<$kind>)),*
        }

        $(impl From<$kind> for Node {
            fn from(worker: $kind) -> Node {
                Node::$kind(Framed::new(worker))
            }
        })*

        impl Node {
            /// Lets it make as many steps as it can, at most `chunk`. Whether it made one.
            #[inline(always)]
            pub fn visit<E: Ends>(&mut self, ends: &mut E, chunk: usize) -> bool {
                match self {
                    $(Node::$kind(node) => node.visit(ends, chunk)),*
                }
            }

            /// Whether it makes no step again.
            pub fn is_over(&self) -> bool {
                match self {
                    $(Node::$kind(node) => node.is_over()),*
                }
            }

            pub fn has_faulted(&self) -> bool {
                match self {
                    $(Node::$kind(node) => node.phase == Phase::Faulted),*
                }
            }
        }
    };
}

nodes!(Source, Const, Iota, Fork, UnitsOf, Binary, Dist, Reduce, Sink, Print);

impl Node {
    /// The number that it has read to be printed, if it is a `Print` and has read one.
    pub fn printed(&self) -> Option<Wide> {
        match self {
            Node::Print(node) => node.worker.number(),
            _ => None,
        }
    }
}

#[cfg(test)]
mod tests {
    use super::Node;
    use crate::arithmetic::Operator;
    use crate::ends::{Ends, Queue, Queues};
    use crate::message::{Item, Message};
    use crate::workers::Binary;

    /// What a binary node over two inputs does with these messages.
    fn visited(left: &[Message], right: &[Message], chunk: usize) -> (Node, Vec<Queue>, bool) {
        let mut edges: Vec<Queue> = (0..3).map(|_| Queue::new(4)).collect();
        let mut feed = Queues {
            edges: &mut edges,
            inputs: &[],
            outputs: &[0, 1],
        };
        left.iter().for_each(|&message| feed.put(0, message));
        right.iter().for_each(|&message| feed.put(1, message));
        let mut node = Node::from(Binary::new(Operator::Add));
        let mut ends = Queues {
            edges: &mut edges,
            inputs: &[0, 1],
            outputs: &[2],
        };
        let moved = node.visit(&mut ends, chunk);
        (node, edges, moved)
    }

    fn written(edges: &mut [Queue]) -> Vec<Message> {
        let mut ends = Queues {
            edges,
            inputs: &[2],
            outputs: &[],
        };
        std::iter::from_fn(|| ends.take(0)).collect()
    }

    fn number(of: i64) -> Message {
        Message::Item(Item::Number(of.into()))
    }

    #[test]
    fn a_node_works_and_ends() {
        let (node, mut edges, moved) =
            visited(&[number(2), Message::End], &[number(3), Message::End], 100);
        assert!(moved && node.is_over() && !node.has_faulted());
        assert_eq!(written(&mut edges), [number(5), Message::End]);
    }

    #[test]
    fn a_visit_keeps_to_its_chunk() {
        let (node, mut edges, moved) =
            visited(&[number(2), Message::End], &[number(3), Message::End], 3);
        assert!(moved && !node.is_over());
        assert_eq!(written(&mut edges), [number(5)]);
    }

    #[test]
    fn a_node_without_messages_does_not_move() {
        let (node, mut edges, moved) = visited(&[], &[number(3)], 100);
        assert!(!moved && !node.is_over());
        assert_eq!(written(&mut edges), []);
    }

    #[test]
    fn streams_of_different_lengths_are_a_fault() {
        for (left, right) in [(2, 1), (1, 2)] {
            let fed = |count| {
                let mut messages = vec![number(1); count];
                messages.push(Message::End);
                messages
            };
            let (node, _, _) = visited(&fed(left), &fed(right), 100);
            assert!(node.has_faulted() && node.is_over());
        }
    }

    #[test]
    fn a_sum_beyond_64_bits_is_a_fault() {
        let (node, _, _) = visited(&[number(i64::MAX)], &[number(1)], 100);
        assert!(node.has_faulted());
    }
}
