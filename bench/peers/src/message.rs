//! What goes over edges.

use crate::arithmetic::Wide;

/// An item of a stream.
#[derive(Clone, Copy, Debug, PartialEq, Eq)]
pub enum Item {
    /// Something is to be made once.
    Unit,
    /// Whether a segment ends here. Where it does not, it has one more element.
    Flag(bool),
    Number(Wide),
}

/// An item, or the end of the stream, behind which nothing comes.
#[derive(Clone, Copy, Debug, PartialEq, Eq)]
pub enum Message {
    Item(Item),
    End,
}
