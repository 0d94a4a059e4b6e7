//! Whole vectors: each operation reads vectors and makes one, as a plain implementation of a data-parallel language
//! does. Constants are spread over vectors too.

use crate::program::{
    Program, COLUMN_STEP, DEPTH, ENTRIES, FACTORS, MODULUS, PAIRS, POWERS, ROW_FACTOR, ROW_STEP,
    ROW_TERM, SPARSE_ENTRIES, SUMS,
};

/// The value of the program, or none where a number is beyond 64 bits.
pub fn run(program: Program, elements: u32) -> Option<i64> {
    match program {
        Program::Squares => squares(elements),
        Program::Wide => wide(elements / SUMS),
        Program::Nest => nest(elements / ENTRIES),
        Program::Deep => deep(elements),
        Program::Heavy => heavy(elements / SUMS),
        Program::Row => row(elements),
        Program::Sparse => sparse(elements / SPARSE_ENTRIES),
        Program::Indices => sum(&gathered(&iota(elements), &iota(elements))?),
    }
}

fn squares(count: u32) -> Option<i64> {
    let numbers = iota(count);
    let squares = products(&numbers, &numbers)?;
    sum(&squares)
}

fn wide(count: u32) -> Option<i64> {
    let mut so_far = 0_i64;
    for more in 0..i64::from(SUMS) {
        let numbers = iota(count);
        let squares = products(&numbers, &numbers)?;
        let more = spread(more, numbers.len());
        let terms = sums(&squares, &more)?;
        so_far = so_far.checked_add(sum(&terms)?)?;
    }
    Some(so_far)
}

fn nest(rows: u32) -> Option<i64> {
    let lengths = vec![ENTRIES; rows as usize];
    let columns = iotas(&lengths);
    let rows = repeated(&iota(rows), &lengths);
    let places = sums(&columns, &rows)?;
    let threefold = products(&columns, &spread(3, columns.len()))?;
    let entries = sums(&threefold, &spread(1, columns.len()))?;
    let terms = products(&places, &entries)?;
    sum(&segment_sums(&terms, &lengths)?)
}

fn deep(count: u32) -> Option<i64> {
    let mut numbers = iota(count);
    for _ in 0..DEPTH {
        numbers = sums(&numbers, &spread(1, numbers.len()))?;
    }
    sum(&numbers)
}

fn heavy(count: u32) -> Option<i64> {
    let mut so_far = 0_i64;
    for more in 0..i64::from(SUMS) {
        let numbers = iota(count);
        let more = spread(more, numbers.len());
        let elements = powers(&sums(&numbers, &more)?)?;
        so_far = so_far.checked_add(sum(&elements)?)?;
    }
    Some(so_far)
}

fn powers(numbers: &[i64]) -> Option<Vec<i64>> {
    let mut elements = remainders(numbers, &spread(MODULUS, numbers.len()))?;
    for _ in 0..POWERS {
        let mut power = products(&elements, &elements)?;
        for _ in 2..FACTORS {
            power = products(&power, &elements)?;
        }
        elements = remainders(&power, &spread(MODULUS, power.len()))?;
    }
    Some(elements)
}

fn row(count: u32) -> Option<i64> {
    let mut numbers = iota(count);
    for _ in 0..PAIRS {
        numbers = sums(&numbers, &spread(ROW_TERM, numbers.len()))?;
        numbers = products(&numbers, &spread(ROW_FACTOR, numbers.len()))?;
    }
    sum(&numbers)
}

fn sparse(rows: u32) -> Option<i64> {
    let vector = iota(rows);
    let lengths = vec![SPARSE_ENTRIES; rows as usize];
    let entries = iotas(&lengths);
    let rows = repeated(&vector, &lengths);
    let count = entries.len();
    let columns = sums(
        &products(&rows, &spread(ROW_STEP, count))?,
        &products(&entries, &spread(COLUMN_STEP, count))?,
    )?;
    let width = spread(i64::try_from(vector.len()).ok()?, count);
    let columns = remainders(&columns, &width)?;
    let values = sums(&entries, &spread(1, count))?;
    let terms = products(&values, &gathered(&vector, &columns)?)?;
    sum(&segment_sums(&terms, &lengths)?)
}

/// The elements at these places, or none where there is no such place.
fn gathered(elements: &[i64], places: &[i64]) -> Option<Vec<i64>> {
    let mut made = Vec::with_capacity(places.len());
    for &place in places {
        made.push(*elements.get(usize::try_from(place).ok()?)?);
    }
    Some(made)
}

/// The numbers below `count`.
fn iota(count: u32) -> Vec<i64> {
    (0..i64::from(count)).collect()
}

/// For each length the numbers below it.
fn iotas(lengths: &[u32]) -> Vec<i64> {
    let mut made = Vec::with_capacity(total(lengths));
    for &length in lengths {
        made.extend(0..i64::from(length));
    }
    made
}

/// The number, so many times.
fn spread(number: i64, count: usize) -> Vec<i64> {
    vec![number; count]
}

/// Each number, as many times as its segment is long.
fn repeated(numbers: &[i64], lengths: &[u32]) -> Vec<i64> {
    let mut made = Vec::with_capacity(total(lengths));
    for (&number, &length) in numbers.iter().zip(lengths) {
        made.resize(made.len() + length as usize, number);
    }
    made
}

fn total(lengths: &[u32]) -> usize {
    lengths.iter().map(|&length| length as usize).sum()
}

fn products(left: &[i64], right: &[i64]) -> Option<Vec<i64>> {
    paired(left, right, i64::checked_mul)
}

fn remainders(left: &[i64], right: &[i64]) -> Option<Vec<i64>> {
    paired(left, right, i64::checked_rem)
}

fn sums(left: &[i64], right: &[i64]) -> Option<Vec<i64>> {
    paired(left, right, i64::checked_add)
}

/// What the operation makes of each two numbers.
fn paired(
    left: &[i64],
    right: &[i64],
    operation: impl Fn(i64, i64) -> Option<i64>,
) -> Option<Vec<i64>> {
    let mut made = Vec::with_capacity(left.len());
    for (&left, &right) in left.iter().zip(right) {
        made.push(operation(left, right)?);
    }
    Some(made)
}

fn sum(numbers: &[i64]) -> Option<i64> {
    numbers
        .iter()
        .try_fold(0_i64, |sum, &number| sum.checked_add(number))
}

/// The sum of each segment.
fn segment_sums(numbers: &[i64], lengths: &[u32]) -> Option<Vec<i64>> {
    let mut made = Vec::with_capacity(lengths.len());
    let mut rest = numbers;
    for &length in lengths {
        let (segment, after) = rest.split_at(length as usize);
        made.push(sum(segment)?);
        rest = after;
    }
    Some(made)
}

#[cfg(test)]
mod tests {
    use super::{gathered, iotas, paired, repeated, segment_sums, sum};

    #[test]
    fn segments_have_their_lengths() {
        let lengths = [2, 0, 3];
        assert_eq!(iotas(&lengths), [0, 1, 0, 1, 2]);
        assert_eq!(repeated(&[7, 8, 9], &lengths), [7, 7, 9, 9, 9]);
        assert_eq!(
            segment_sums(&[1, 2, 3, 4, 5], &lengths),
            Some(vec![3, 0, 12])
        );
    }

    #[test]
    fn elements_are_gathered_where_their_places_are() {
        assert_eq!(gathered(&[7, 8, 9], &[2, 0, 2]), Some(vec![9, 7, 9]));
        assert_eq!(gathered(&[7, 8, 9], &[3]), None);
        assert_eq!(gathered(&[7, 8, 9], &[-1]), None);
    }

    #[test]
    fn numbers_beyond_64_bits_are_none() {
        assert_eq!(sum(&[i64::MAX, 1]), None);
        assert_eq!(paired(&[1, i64::MAX], &[1, 2], i64::checked_mul), None);
    }
}
