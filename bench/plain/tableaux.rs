//! Operations on tableaux: column reading, moves, repeat counts, cells.

use super::checks::{check_counted_tableau, check_room, check_tableau, Answer, Tableau};
use super::words::{check_index, move_letters, Side};

/// The column reading of a valid tableau: the letters copied, then each column of two or more cells reversed.
pub fn lay_reading(letters: &[u8], marks: &[u8], word: &mut [u8]) {
    word[..letters.len()].copy_from_slice(letters);
    let mut from = 0;
    while let Some(steps) = marks[from..].iter().position(|&mark| mark != 0) {
        let down = from + steps;
        let rest = marks[down..].iter().position(|&mark| mark == 0);
        from = rest.map_or(marks.len(), |rest| down + rest);
        word[down - 1..from].reverse();
    }
}

pub fn column_reading(rank: usize, tableau: Tableau, word: &mut [u8]) -> Answer<usize> {
    check_counted_tableau(rank, tableau)?;
    check_room(tableau.letters.len(), word.len())?;
    lay_reading(tableau.letters, tableau.marks, word);
    Ok(tableau.letters.len())
}

/// Whether index + 1 stands directly below index.
fn has_below(index: u8, letters: &[u8], marks: &[u8]) -> bool {
    let steps = letters.iter().zip(letters.iter().skip(1));
    steps
        .zip(marks.iter().skip(1))
        .any(|((&upper, &lower), &mark)| upper == index && mark == 1 && lower == index + 1)
}

pub fn move_tableau(
    side: Side,
    rank: usize,
    index: usize,
    letters: &mut [u8],
    marks: &[u8],
    counts: &mut [u16; 64],
) -> Answer<usize> {
    let tableau = Tableau {
        letters,
        marks,
        counts,
    };
    check_counted_tableau(rank, tableau)?;
    check_index(rank, index)?;
    let inversion = has_below(index as u8, letters, marks);
    let place = move_letters(side, index as u8, inversion, letters)?;
    let (taken, given) = match side {
        Side::Raising => (index, index - 1),
        Side::Lowering => (index - 1, index),
    };
    counts[taken] -= 1;
    counts[given] += 1;
    Ok(place)
}

/// The repeat count, from the stored counts.
pub fn repeat_tableau(side: Side, rank: usize, index: usize, tableau: Tableau) -> Answer<usize> {
    check_counted_tableau(rank, tableau)?;
    check_index(rank, index)?;
    if has_below(index as u8, tableau.letters, tableau.marks) {
        return Ok(0);
    }
    Ok(usize::from(match side {
        Side::Raising => tableau.counts[index],
        Side::Lowering => tableau.counts[index - 1],
    }))
}

/// Letter, row and column of the cell at a place.
pub type Cell = (u8, usize, usize);

/// The cell at a place, over any letters and marks.
pub fn cell_at(letters: &[u8], marks: &[u8], place: usize) -> Option<Cell> {
    let &letter = letters.get(place)?;
    let end = marks.len().min(place + 1);
    let steps = marks.get(1..end).unwrap_or(&[]);
    let count = |mark| steps.iter().filter(|&&x| x == mark).count();
    Some((letter, count(1), count(0)))
}

pub fn look(rank: usize, letters: &[u8], marks: &[u8], place: usize) -> Answer<Option<Cell>> {
    check_tableau(rank, letters, marks)?;
    Ok(cell_at(letters, marks, place))
}
