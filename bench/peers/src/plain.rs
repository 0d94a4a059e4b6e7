//! Plain loops, which make no sequence. A vector is a slice, and its elements are read by their index.

use crate::program::{
    Program, COLUMN_STEP, DEPTH, ENTRIES, FACTORS, MODULUS, PAIRS, POWERS, ROW_FACTOR, ROW_STEP,
    ROW_TERM, SPARSE_ENTRIES, SUMS,
};
use std::hint::black_box;

/// The value of the program, or none where a number is beyond 64 bits.
pub fn run(program: Program, elements: u32) -> Option<i64> {
    let count = i64::from(elements);
    match program {
        Program::Squares => squares_and_more(count, 0),
        Program::Wide => wide(count / i64::from(SUMS)),
        Program::Nest => nest(count / i64::from(ENTRIES)),
        Program::Deep => deep(count),
        Program::Heavy => heavy(count / i64::from(SUMS)),
        Program::Row => row(count),
        Program::Sparse => sparse(count / i64::from(SPARSE_ENTRIES)),
        Program::Indices => indices(count),
    }
}

fn squares_and_more(count: i64, more: i64) -> Option<i64> {
    let mut sum = 0_i64;
    for x in 0..count {
        sum = sum.checked_add(x.checked_mul(x)?.checked_add(more)?)?;
    }
    Some(sum)
}

fn wide(count: i64) -> Option<i64> {
    let mut sum = 0_i64;
    for more in 0..i64::from(SUMS) {
        sum = sum.checked_add(squares_and_more(count, more)?)?;
    }
    Some(sum)
}

fn nest(rows: i64) -> Option<i64> {
    // The compiler is not to know that all rows are short, and do them without a loop.
    let entries = black_box(i64::from(ENTRIES));
    let mut sum = 0_i64;
    for i in 0..rows {
        let mut row = 0_i64;
        for j in 0..entries {
            let entry = j.checked_mul(3)?.checked_add(1)?;
            row = row.checked_add(j.checked_add(i)?.checked_mul(entry)?)?;
        }
        sum = sum.checked_add(row)?;
    }
    Some(sum)
}

fn deep(count: i64) -> Option<i64> {
    let mut sum = 0_i64;
    for x in 0..count {
        let mut element = x;
        for _ in 0..DEPTH {
            element = element.checked_add(1)?;
        }
        sum = sum.checked_add(element)?;
    }
    Some(sum)
}

fn heavy(count: i64) -> Option<i64> {
    let mut sum = 0_i64;
    for more in 0..i64::from(SUMS) {
        sum = sum.checked_add(powers(count, more)?)?;
    }
    Some(sum)
}

fn powers(count: i64, more: i64) -> Option<i64> {
    // The compiler is not to know how small the factors are, and make fewer multiplications of the hundred.
    let modulus = black_box(MODULUS);
    let mut sum = 0_i64;
    for x in 0..count {
        let mut element = x.checked_add(more)?.checked_rem(modulus)?;
        for _ in 0..POWERS {
            let mut power = element;
            for _ in 1..FACTORS {
                power = power.checked_mul(element)?;
            }
            element = power.checked_rem(modulus)?;
        }
        sum = sum.checked_add(element)?;
    }
    Some(sum)
}

fn row(count: i64) -> Option<i64> {
    let mut sum = 0_i64;
    for x in 0..count {
        let mut element = x;
        for _ in 0..PAIRS {
            element = element.checked_add(ROW_TERM)?.checked_mul(ROW_FACTOR)?;
        }
        sum = sum.checked_add(element)?;
    }
    Some(sum)
}

fn indices(count: i64) -> Option<i64> {
    // The compiler is not to know what the vector holds.
    let vector: Vec<i64> = black_box((0..count).collect());
    let mut sum = 0_i64;
    for i in 0..count {
        sum = sum.checked_add(*vector.get(usize::try_from(i).ok()?)?)?;
    }
    Some(sum)
}

fn sparse(rows: i64) -> Option<i64> {
    let vector: Vec<i64> = black_box((0..rows).collect());
    let entries = black_box(i64::from(SPARSE_ENTRIES));
    let mut sum = 0_i64;
    for i in 0..rows {
        let mut row = 0_i64;
        for j in 0..entries {
            let column = i
                .checked_mul(ROW_STEP)?
                .checked_add(j.checked_mul(COLUMN_STEP)?)?
                .checked_rem(rows)?;
            let element = *vector.get(usize::try_from(column).ok()?)?;
            row = row.checked_add(j.checked_add(1)?.checked_mul(element)?)?;
        }
        sum = sum.checked_add(row)?;
    }
    Some(sum)
}

#[cfg(test)]
mod tests {
    use super::squares_and_more;

    #[test]
    fn a_sum_beyond_64_bits_is_none() {
        assert_eq!(squares_and_more(4, 1), Some(18));
        assert_eq!(squares_and_more(3, i64::MAX), None);
    }
}
