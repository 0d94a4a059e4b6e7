//! What the nodes of the networks do, each as a machine of its own.

use crate::arithmetic::{Operator, Wide};
use crate::message::Item;
use crate::node::{Ask, Fault, Worker};

/// Writes one unit.
pub struct Source {
    written: bool,
}

impl Source {
    pub fn new() -> Source {
        Source { written: false }
    }
}

impl Worker for Source {
    fn inputs(&self) -> usize {
        0
    }

    fn outputs(&self) -> usize {
        1
    }

    fn ask(&self) -> Ask {
        if self.written {
            Ask::Finish
        } else {
            Ask::Give(0)
        }
    }

    fn give(&mut self) -> Item {
        self.written = true;
        Item::Unit
    }
}

/// Writes a number for each unit.
pub struct Const {
    number: Wide,
    due: bool,
}

impl Const {
    pub fn new(number: Wide) -> Const {
        Const { number, due: false }
    }
}

impl Worker for Const {
    fn inputs(&self) -> usize {
        1
    }

    fn outputs(&self) -> usize {
        1
    }

    #[inline(always)]
    fn ask(&self) -> Ask {
        if self.due {
            Ask::Give(0)
        } else {
            Ask::Begin
        }
    }

    #[inline(always)]
    fn take(&mut self, item: Item) -> Result<(), Fault> {
        let Item::Unit = item else { return Err(Fault) };
        self.due = true;
        Ok(())
    }

    #[inline(always)]
    fn give(&mut self) -> Item {
        self.due = false;
        Item::Number(self.number)
    }
}

/// Writes for each number the segment of the numbers from 0 on below it: flags to output 0, elements to output 1.
pub enum Iota {
    Between,
    Flag { next: Wide, end: Wide },
    Element { next: Wide, end: Wide },
}

impl Iota {
    pub fn new() -> Iota {
        Iota::Between
    }
}

impl Worker for Iota {
    fn inputs(&self) -> usize {
        1
    }

    fn outputs(&self) -> usize {
        2
    }

    #[inline(always)]
    fn ask(&self) -> Ask {
        match self {
            Iota::Between => Ask::Begin,
            Iota::Flag { .. } => Ask::Give(0),
            Iota::Element { .. } => Ask::Give(1),
        }
    }

    #[inline(always)]
    fn take(&mut self, item: Item) -> Result<(), Fault> {
        match item {
            Item::Number(end) if end >= 0 => {
                *self = Iota::Flag { next: 0, end };
                Ok(())
            }
            _ => Err(Fault),
        }
    }

    #[inline(always)]
    fn give(&mut self) -> Item {
        match *self {
            Iota::Flag { next, end } if next < end => {
                *self = Iota::Element { next, end };
                Item::Flag(false)
            }
            Iota::Element { next, end } => {
                *self = Iota::Flag {
                    next: next + 1,
                    end,
                };
                Item::Number(next)
            }
            Iota::Flag { .. } | Iota::Between => {
                *self = Iota::Between;
                Item::Flag(true)
            }
        }
    }
}

/// Writes each item to every output.
pub struct Fork {
    outputs: usize,
    held: Option<Item>,
    next: usize,
}

impl Fork {
    pub fn new(outputs: usize) -> Fork {
        Fork {
            outputs,
            held: None,
            next: 0,
        }
    }
}

impl Worker for Fork {
    fn inputs(&self) -> usize {
        1
    }

    fn outputs(&self) -> usize {
        self.outputs
    }

    #[inline(always)]
    fn ask(&self) -> Ask {
        match self.held {
            None => Ask::Begin,
            Some(_) => Ask::Give(self.next),
        }
    }

    #[inline(always)]
    fn take(&mut self, item: Item) -> Result<(), Fault> {
        self.held = Some(item);
        self.next = 0;
        Ok(())
    }

    #[inline(always)]
    fn give(&mut self) -> Item {
        let item = self.held.expect("it asks to write what it holds");
        self.next += 1;
        if self.next == self.outputs {
            self.held = None;
        }
        item
    }
}

/// Writes a unit for each flag that stands for an element.
pub struct UnitsOf {
    due: bool,
}

impl UnitsOf {
    pub fn new() -> UnitsOf {
        UnitsOf { due: false }
    }
}

impl Worker for UnitsOf {
    fn inputs(&self) -> usize {
        1
    }

    fn outputs(&self) -> usize {
        1
    }

    #[inline(always)]
    fn ask(&self) -> Ask {
        if self.due {
            Ask::Give(0)
        } else {
            Ask::Begin
        }
    }

    #[inline(always)]
    fn take(&mut self, item: Item) -> Result<(), Fault> {
        let Item::Flag(ends) = item else {
            return Err(Fault);
        };
        self.due = !ends;
        Ok(())
    }

    #[inline(always)]
    fn give(&mut self) -> Item {
        self.due = false;
        Item::Unit
    }
}

/// Writes what an operator gives for each two numbers, one from each input.
pub struct Binary {
    operator: Operator,
    progress: Progress,
}

enum Progress {
    Start,
    Left(Wide),
    Result(Wide),
}

impl Binary {
    pub fn new(operator: Operator) -> Binary {
        Binary {
            operator,
            progress: Progress::Start,
        }
    }
}

impl Worker for Binary {
    fn inputs(&self) -> usize {
        2
    }

    fn outputs(&self) -> usize {
        1
    }

    #[inline(always)]
    fn ask(&self) -> Ask {
        match self.progress {
            Progress::Start => Ask::Begin,
            Progress::Left(_) => Ask::Take(1),
            Progress::Result(_) => Ask::Give(0),
        }
    }

    #[inline(always)]
    fn take(&mut self, item: Item) -> Result<(), Fault> {
        let Item::Number(number) = item else {
            return Err(Fault);
        };
        self.progress = match self.progress {
            Progress::Left(left) => {
                Progress::Result(self.operator.apply(left, number).ok_or(Fault)?)
            }
            _ => Progress::Left(number),
        };
        Ok(())
    }

    #[inline(always)]
    fn give(&mut self) -> Item {
        let Progress::Result(result) = self.progress else {
            unreachable!("it asks to write a result");
        };
        self.progress = Progress::Start;
        Item::Number(result)
    }
}

/// Writes each item of input 0 once for each element of the next segment, whose flags come at input 1.
pub struct Dist {
    held: Option<Item>,
    due: bool,
}

impl Dist {
    pub fn new() -> Dist {
        Dist {
            held: None,
            due: false,
        }
    }
}

impl Worker for Dist {
    fn inputs(&self) -> usize {
        2
    }

    fn outputs(&self) -> usize {
        1
    }

    #[inline(always)]
    fn ask(&self) -> Ask {
        match (self.held, self.due) {
            (None, _) => Ask::Begin,
            (Some(_), false) => Ask::Take(1),
            (Some(_), true) => Ask::Give(0),
        }
    }

    #[inline(always)]
    fn take(&mut self, item: Item) -> Result<(), Fault> {
        match (self.held, item) {
            (None, _) => self.held = Some(item),
            (Some(_), Item::Flag(false)) => self.due = true,
            (Some(_), Item::Flag(true)) => self.held = None,
            (Some(_), _) => return Err(Fault),
        }
        Ok(())
    }

    #[inline(always)]
    fn give(&mut self) -> Item {
        self.due = false;
        self.held.expect("it asks to write what it holds")
    }
}

/// Writes the sum of each segment, whose flags come at input 0 and whose elements at input 1.
pub struct Reduce {
    sum: Wide,
    stage: Stage,
}

enum Stage {
    Start,
    Flag,
    Element,
    Sum,
}

impl Reduce {
    pub fn new() -> Reduce {
        Reduce {
            sum: 0,
            stage: Stage::Start,
        }
    }
}

impl Worker for Reduce {
    fn inputs(&self) -> usize {
        2
    }

    fn outputs(&self) -> usize {
        1
    }

    #[inline(always)]
    fn ask(&self) -> Ask {
        match self.stage {
            Stage::Start => Ask::Begin,
            Stage::Flag => Ask::Take(0),
            Stage::Element => Ask::Take(1),
            Stage::Sum => Ask::Give(0),
        }
    }

    #[inline(always)]
    fn take(&mut self, item: Item) -> Result<(), Fault> {
        self.stage = match (&self.stage, item) {
            (Stage::Start | Stage::Flag, Item::Flag(false)) => Stage::Element,
            (Stage::Start | Stage::Flag, Item::Flag(true)) => Stage::Sum,
            (Stage::Element, Item::Number(element)) => {
                self.sum = Operator::Add.apply(self.sum, element).ok_or(Fault)?;
                Stage::Flag
            }
            _ => return Err(Fault),
        };
        Ok(())
    }

    #[inline(always)]
    fn give(&mut self) -> Item {
        let sum = self.sum;
        *self = Reduce::new();
        Item::Number(sum)
    }
}

/// Drops what comes.
pub struct Sink;

impl Worker for Sink {
    fn inputs(&self) -> usize {
        1
    }

    fn outputs(&self) -> usize {
        0
    }

    #[inline(always)]
    fn ask(&self) -> Ask {
        Ask::Begin
    }

    #[inline(always)]
    fn take(&mut self, _: Item) -> Result<(), Fault> {
        Ok(())
    }
}

/// Keeps the number that is to be printed.
pub struct Print {
    number: Option<Wide>,
}

impl Print {
    pub fn new() -> Print {
        Print { number: None }
    }

    /// The number that has come.
    pub fn number(&self) -> Option<Wide> {
        self.number
    }
}

impl Worker for Print {
    fn inputs(&self) -> usize {
        1
    }

    fn outputs(&self) -> usize {
        0
    }

    fn ask(&self) -> Ask {
        Ask::Begin
    }

    fn take(&mut self, item: Item) -> Result<(), Fault> {
        let Item::Number(number) = item else {
            return Err(Fault);
        };
        self.number = Some(number);
        Ok(())
    }
}
