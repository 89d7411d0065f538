//! Two tableaux, told apart by marks and counts.

use super::checks::{check_tableaux, Answer, Tableau};
use super::words::order_of;

pub fn same_class(rank: usize, first: Tableau, other_rank: usize, second: Tableau) -> Answer<bool> {
    check_tableaux(rank, first, other_rank, second)?;
    Ok(first.counts == second.counts && first.marks == second.marks)
}

pub fn compare_weights(
    rank: usize,
    first: Tableau,
    other_rank: usize,
    second: Tableau,
) -> Answer<usize> {
    check_tableaux(rank, first, other_rank, second)?;
    Ok(order_of(first.counts, second.counts))
}
