//! Sums, products and remainders as the language has them: one that 64 bits do not hold is a fault, and so is a
//! remainder of a division by 0.

/// Integers as the product holds them: of 128 bits, since its second dialect uses them all.
pub type Wide = i128;

/// Which operation a worker applies to two numbers.
#[derive(Clone, Copy, Debug, PartialEq, Eq)]
pub enum Operator {
    Add,
    Multiply,
    Remainder,
}

impl Operator {
    /// What it gives for these numbers, each of which 64 bits hold.
    #[inline(always)]
    pub fn apply(self, left: Wide, right: Wide) -> Option<Wide> {
        match self {
            Operator::Add => held(left + right),
            Operator::Multiply => held(left * right),
            Operator::Remainder => left.checked_rem(right),
        }
    }
}

/// The number, if 64 bits hold it.
#[inline(always)]
fn held(number: Wide) -> Option<Wide> {
    i64::try_from(number).ok().map(Wide::from)
}

#[cfg(test)]
mod tests {
    use super::{Operator, Wide};

    #[test]
    fn results_of_64_bits_are_given() {
        let most = Wide::from(i64::MAX);
        assert_eq!(Operator::Add.apply(most, 0), Some(most));
        assert_eq!(Operator::Add.apply(most, 1), None);
        assert_eq!(Operator::Multiply.apply(most, -1), Some(-most));
        assert_eq!(Operator::Multiply.apply(most, 2), None);
    }

    #[test]
    fn remainders_have_the_sign_of_the_left() {
        assert_eq!(Operator::Remainder.apply(-7, 4), Some(-3));
        assert_eq!(Operator::Remainder.apply(7, -4), Some(3));
        assert_eq!(Operator::Remainder.apply(7, 0), None);
    }
}
