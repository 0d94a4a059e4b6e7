//! Networks, and how they are put together.

use crate::arithmetic::{Operator, Wide};
use crate::node::Node;
use crate::peer::Answer;
use crate::workers::{Binary, Const, Dist, Fork, Iota, Print, Reduce, Sink, Source, UnitsOf};
use std::array;

/// A node, and the numbers of its edges.
pub struct Place {
    pub node: Node,
    pub inputs: Vec<usize>,
    pub outputs: Vec<usize>,
}

/// Nodes in an order in which each edge leads to a later one.
#[derive(Default)]
pub struct Network {
    pub places: Vec<Place>,
    pub edges: usize,
}

/// An edge that no node reads yet. It is given away to its one reader.
pub struct Wire(usize);

/// The edges of segments: whether another element comes, and the elements.
pub struct Segments {
    pub flags: Wire,
    pub elements: Wire,
}

impl Network {
    /// One unit.
    pub fn source(&mut self) -> Wire {
        self.add_with_one_output(Source::new(), [])
    }

    /// The number, once for each unit.
    pub fn constant(&mut self, units: Wire, number: Wide) -> Wire {
        self.add_with_one_output(Const::new(number), [units])
    }

    /// For each number those below it.
    pub fn iota(&mut self, ends: Wire) -> Segments {
        let [flags, elements] = self.add(Iota::new(), [ends]);
        Segments { flags, elements }
    }

    /// What the wire carries, `N` times.
    pub fn copies<const N: usize>(&mut self, wire: Wire) -> [Wire; N] {
        self.add(Fork::new(N), [wire])
    }

    /// A unit for each element.
    pub fn units_of(&mut self, flags: Wire) -> Wire {
        self.add_with_one_output(UnitsOf::new(), [flags])
    }

    /// What the operator gives for each two numbers.
    pub fn binary(&mut self, operator: Operator, left: Wire, right: Wire) -> Wire {
        self.add_with_one_output(Binary::new(operator), [left, right])
    }

    /// Each item, once for each element of its segment.
    pub fn dist(&mut self, items: Wire, flags: Wire) -> Wire {
        self.add_with_one_output(Dist::new(), [items, flags])
    }

    /// The sum of each segment.
    pub fn sums(&mut self, segments: Segments) -> Wire {
        self.add_with_one_output(Reduce::new(), [segments.flags, segments.elements])
    }

    /// Nothing uses what the wire carries.
    pub fn drop_all(&mut self, wire: Wire) {
        let [] = self.add(Sink, [wire]);
    }

    /// The wire carries the answer.
    pub fn print(&mut self, wire: Wire) {
        let [] = self.add(Print::new(), [wire]);
    }

    fn add_with_one_output<const IN: usize>(
        &mut self,
        worker: impl Into<Node>,
        inputs: [Wire; IN],
    ) -> Wire {
        let [output] = self.add(worker, inputs);
        output
    }

    fn add<const IN: usize, const OUT: usize>(
        &mut self,
        worker: impl Into<Node>,
        inputs: [Wire; IN],
    ) -> [Wire; OUT] {
        let first = self.edges;
        self.edges += OUT;
        self.places.push(Place {
            node: worker.into(),
            inputs: inputs.map(|wire| wire.0).to_vec(),
            outputs: (first..self.edges).collect(),
        });
        array::from_fn(|output| Wire(first + output))
    }
}

/// What a network at rest answers.
pub fn answer_of<'a>(nodes: impl Iterator<Item = &'a Node> + Clone) -> Answer {
    if nodes.clone().any(Node::has_faulted) {
        return Answer::Fault;
    }
    let all_over = nodes.clone().all(Node::is_over);
    match nodes.filter_map(Node::printed).last() {
        Some(number) if all_over => Answer::Value(number),
        _ => Answer::Stalled,
    }
}
