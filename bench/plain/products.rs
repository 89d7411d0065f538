//! The product of two tableaux, from marks and counts.

use super::checks::{check_factors, check_room, Answer, Tableau};
use super::words::lay_cells;

/// Which letters of a valid tableau a step down leaves.
fn letters_left(tableau: Tableau) -> [bool; 64] {
    let mut left = [false; 64];
    for (&letter, &mark) in tableau.letters.iter().zip(tableau.marks.iter().skip(1)) {
        left[usize::from(letter) - 1] |= mark != 0;
    }
    left
}

/// Letters, marks and counts of the product of two valid tableaux. From the largest letter down: a step down leaves a letter
/// where the next larger one of either stands in the first, and such a step leaves the letter there or the second has it, or
/// where the next larger one stands in the second, and such a step leaves the letter there.
fn lay_product(
    rank: usize,
    first: Tableau,
    second: Tableau,
    letters: &mut [u8],
    marks: &mut [u8],
    counts: &mut [u16; 64],
) {
    *counts = *first.counts;
    let others = second.counts;
    let left = letters_left(first);
    let others_left = letters_left(second);
    let mut set = 0;
    let (mut in_first, mut in_second) = (false, false);
    for a in (0..rank).rev() {
        let (here, there) = (counts[a] > 0, others[a] > 0);
        let down = in_first && (left[a] || there) || in_second && others_left[a];
        set = (set << 1) | u64::from(down);
        if here || there {
            (in_first, in_second) = (here, there);
        }
    }
    for (count, other) in counts.iter_mut().zip(others) {
        *count += other;
    }
    lay_cells(rank, counts, set, letters, marks);
}

pub fn product(
    rank: usize,
    first: Tableau,
    second: Tableau,
    letters: &mut [u8],
    marks: &mut [u8],
    counts: &mut [u16; 64],
) -> Answer<usize> {
    check_factors(rank, first, second)?;
    let cells = first.letters.len() + second.letters.len();
    check_room(cells, letters.len())?;
    check_room(cells, marks.len())?;
    lay_product(rank, first, second, letters, marks, counts);
    Ok(cells)
}
