//! What document 01 accepts: each test is one of 01's conditions on what a call takes.

use crate::line::Stop;

/// The most states of a partition, and the greatest end of a block given alone.
pub const MOST_STATES: usize = 4_096;

/// Goes on if 01's condition holds, and stops as refused if not.
pub fn accept(condition: bool) -> Result<(), Stop> {
    if condition { Ok(()) } else { Err(Stop::Refused) }
}

/// The number of states is in its range.
pub fn states(n: usize) -> Result<(), Stop> {
    accept((1..=MOST_STATES).contains(&n))
}

/// The bounds of a block that a constructor takes.
pub fn bounds(begin: usize, end: usize) -> Result<(), Stop> {
    accept(begin < end && end <= MOST_STATES)
}

/// A block, its end at most `most`.
pub fn block(begin: usize, marked_split: usize, end: usize, most: usize) -> Result<(), Stop> {
    accept(begin < end && end <= most)?;
    accept(begin <= marked_split && marked_split <= end)
}

/// Each number below the length stands in the list once: then nothing else does.
pub fn permutation(list: &[usize]) -> Result<(), Stop> {
    let mut seen = vec![false; list.len()];
    for &number in list {
        accept(number < list.len() && !seen[number])?;
        seen[number] = true;
    }
    Ok(())
}

/// Every number from 0 to the largest stands in the list.
pub fn dense(list: &[usize]) -> Result<(), Stop> {
    let mut numbers = list.to_vec();
    numbers.sort_unstable();
    numbers.dedup();
    accept(numbers.iter().enumerate().all(|(place, &number)| number == place))
}

/// The second list takes each number to its place in the first.
pub fn inverse(list: &[usize], places: &[usize]) -> Result<(), Stop> {
    list.iter().enumerate().try_for_each(|(place, &number)| accept(places[number] == place))
}

/// Each entry of a list is above the one before.
pub fn ascending<T: Ord>(list: &[T]) -> Result<(), Stop> {
    accept(list.windows(2).all(|pair| pair[0] < pair[1]))
}
