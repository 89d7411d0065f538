//! The checks, in rising number, 17 after 6. As in the kernel, 4 to 8 make one pass over all places that leaves at none,
//! and look for the first fault only where that pass saw one; 17 looks at the ends of the blocks that the counts cut
//! off the letters, and counts these only where that fails.

use super::recordings::{check_entries, check_steps};
use super::words::letter_counts;

/// The refusal of an input: its number and place.
#[derive(Clone, Copy)]
pub struct Refusal {
    pub number: usize,
    pub place: usize,
}

/// What an operation answers.
pub type Answer<T> = Result<T, Refusal>;

pub fn refuse_if(wrong: bool, number: usize, place: usize) -> Answer<()> {
    if wrong {
        Err(Refusal { number, place })
    } else {
        Ok(())
    }
}

/// The refusal at the first place of a fault, if there is one.
pub fn refuse_at(fault: Option<usize>, number: usize) -> Answer<()> {
    fault.map_or(Ok(()), |place| Err(Refusal { number, place }))
}

pub fn check_rank(rank: usize) -> Answer<()> {
    refuse_if(!(1..=64).contains(&rank), 1, 0)
}

pub fn check_length(length: usize) -> Answer<()> {
    refuse_if(length > 1024, 2, 0)
}

/// 1 and 2.
pub fn check_limits(rank: usize, length: usize) -> Answer<()> {
    check_rank(rank)?;
    check_length(length)
}

/// 4, its places counted on from `before`.
pub fn check_letters(rank: usize, letters: &[u8], before: usize) -> Answer<()> {
    let (least, largest) = letters
        .iter()
        .fold((u8::MAX, 0), |(least, largest): (u8, u8), &x| {
            (least.min(x), largest.max(x))
        });
    if least >= 1 && usize::from(largest) <= rank {
        return Ok(());
    }
    let outside = |&x: &u8| x < 1 || usize::from(x) > rank;
    refuse_at(letters.iter().position(outside).map(|p| before + p), 4)
}

/// 5, likewise.
fn check_rising(letters: &[u8], before: usize) -> Answer<()> {
    let steps = || letters.iter().zip(letters.iter().skip(1));
    if !steps().fold(false, |wrong, (left, here)| wrong | (here < left)) {
        return Ok(());
    }
    let fault = steps().position(|(left, here)| here < left);
    refuse_at(fault.map(|p| before + p + 1), 5)
}

/// 6, likewise, of as many marks as letters.
fn check_marks(letters: &[u8], marks: &[u8], before: usize) -> Answer<()> {
    refuse_if(marks.first().is_some_and(|&mark| mark > 0), 6, before)?;
    let steps = || {
        let letters = letters.iter().zip(letters.iter().skip(1));
        letters.zip(marks.iter().skip(1))
    };
    let wrong = |((left, here), &mark): ((&u8, &u8), &u8)| mark > u8::from(left != here);
    if !steps().fold(false, |seen, step| seen | wrong(step)) {
        return Ok(());
    }
    refuse_at(steps().position(wrong).map(|p| before + p + 1), 6)
}

/// Whether rising letters are blocks of equal ones, as many of each as the counts say.
fn in_blocks(letters: &[u8], counts: &[u16; 64]) -> bool {
    let mut rest = letters;
    for (letter, &count) in (1..).zip(counts) {
        if count == 0 {
            continue;
        }
        let Some((block, after)) = rest.split_at_checked(usize::from(count)) else {
            return false;
        };
        if block.first() != Some(&letter) || block.last() != Some(&letter) {
            return false;
        }
        rest = after;
    }
    rest.is_empty()
}

/// 17, likewise, of letters that 4 and 5 have passed.
pub fn check_counts(letters: &[u8], counts: &[u16; 64], before: usize) -> Answer<()> {
    if in_blocks(letters, counts) {
        return Ok(());
    }
    let found = letter_counts(letters);
    let wrong = counts
        .iter()
        .zip(&found)
        .position(|(count, found)| count != found);
    refuse_at(wrong.map(|p| before + p), 17)
}

/// 13.
pub fn check_room(need: usize, have: usize) -> Answer<()> {
    refuse_if(have < need, 13, need)
}

/// 1, 2 and 4 of a word.
pub fn check_word(rank: usize, word: &[u8]) -> Answer<()> {
    check_limits(rank, word.len())?;
    check_letters(rank, word, 0)
}

/// 1, 2 and 4 of two words, each check over both.
pub fn check_words(rank: usize, word: &[u8], other_rank: usize, other: &[u8]) -> Answer<()> {
    check_rank(rank)?;
    check_rank(other_rank)?;
    check_length(word.len())?;
    check_length(other.len())?;
    check_letters(rank, word, 0)?;
    check_letters(other_rank, other, word.len())
}

/// 4, 5 and 6.
fn check_cells(rank: usize, letters: &[u8], marks: &[u8]) -> Answer<()> {
    check_letters(rank, letters, 0)?;
    check_rising(letters, 0)?;
    check_marks(letters, marks, 0)
}

/// 1 to 6 of a tableau.
pub fn check_tableau(rank: usize, letters: &[u8], marks: &[u8]) -> Answer<()> {
    check_limits(rank, letters.len())?;
    refuse_if(marks.len() != letters.len(), 3, 0)?;
    check_cells(rank, letters, marks)
}

/// A tableau where it lies, with its letter counts.
#[derive(Clone, Copy)]
pub struct Tableau<'a> {
    pub letters: &'a [u8],
    pub marks: &'a [u8],
    pub counts: &'a [u16; 64],
}

/// 1 to 6 and 17 of a tableau.
pub fn check_counted_tableau(rank: usize, tableau: Tableau) -> Answer<()> {
    check_tableau(rank, tableau.letters, tableau.marks)?;
    check_counts(tableau.letters, tableau.counts, 0)
}

/// 3 to 6 and 17 of two tableaux, each check over the first, then over the second.
fn check_both(rank: usize, first: Tableau, other_rank: usize, second: Tableau) -> Answer<()> {
    let before = first.letters.len();
    refuse_if(first.marks.len() != first.letters.len(), 3, 0)?;
    refuse_if(second.marks.len() != second.letters.len(), 3, 0)?;
    check_letters(rank, first.letters, 0)?;
    check_letters(other_rank, second.letters, before)?;
    check_rising(first.letters, 0)?;
    check_rising(second.letters, before)?;
    check_marks(first.letters, first.marks, 0)?;
    check_marks(second.letters, second.marks, before)?;
    check_counts(first.letters, first.counts, 0)?;
    check_counts(second.letters, second.counts, 64)
}

/// 1 to 6 and 17 of two tableaux of one rank: 2 of their cells together.
pub fn check_factors(rank: usize, first: Tableau, second: Tableau) -> Answer<()> {
    check_limits(
        rank,
        first.letters.len().saturating_add(second.letters.len()),
    )?;
    check_both(rank, first, rank, second)
}

/// The same of two tableaux, each of its own rank and length.
pub fn check_tableaux(
    rank: usize,
    first: Tableau,
    other_rank: usize,
    second: Tableau,
) -> Answer<()> {
    check_rank(rank)?;
    check_rank(other_rank)?;
    check_length(first.letters.len())?;
    check_length(second.letters.len())?;
    check_both(rank, first, other_rank, second)
}

/// 1, 2 and 3 of a pair.
fn check_parts(rank: usize, letters: &[u8], marks: &[u8], entries: &[u16]) -> Answer<()> {
    check_limits(rank, letters.len())?;
    let alike = marks.len() == letters.len() && entries.len() == letters.len();
    refuse_if(!alike, 3, 0)
}

/// 1 to 8 of a pair.
pub fn check_pair(rank: usize, letters: &[u8], marks: &[u8], entries: &[u16]) -> Answer<()> {
    check_parts(rank, letters, marks, entries)?;
    check_cells(rank, letters, marks)?;
    check_entries(entries)?;
    check_steps(entries, marks)
}

/// 1 to 6, 17, 7 and 8 of a pair.
pub fn check_counted_pair(rank: usize, tableau: Tableau, entries: &[u16]) -> Answer<()> {
    let Tableau {
        letters,
        marks,
        counts,
    } = tableau;
    check_parts(rank, letters, marks, entries)?;
    check_cells(rank, letters, marks)?;
    check_counts(letters, counts, 0)?;
    check_entries(entries)?;
    check_steps(entries, marks)
}

/// 4 to 6, 17, 7 and 8 of the cells of a pair and of a letter to be inserted.
pub fn check_used(rank: usize, letter: usize, used: Tableau, entries: &[u16]) -> Answer<()> {
    let Tableau {
        letters,
        marks,
        counts,
    } = used;
    check_letters(rank, letters, 0)?;
    refuse_if(letter < 1 || letter > rank, 4, letters.len())?;
    check_rising(letters, 0)?;
    check_marks(letters, marks, 0)?;
    check_counts(letters, counts, 0)?;
    check_entries(entries)?;
    check_steps(entries, marks)
}
