//! The words of a class by number. A word is an order in which the cells of its ribbon are taken out; orders are counted as
//! the kernel counts them.

use super::checks::{check_counted_tableau, check_room, check_word, refuse_if, Answer, Tableau};
use super::words::lay_pair;

const MOST: usize = 20;

/// The mark of a step that binds nothing: at a gap, and into the first cell.
const FREE: u8 = 2;

/// A ribbon of at most 20 cells, in the first places.
#[derive(Clone, Copy)]
struct Ribbon {
    letters: [u8; MOST],
    marks: [u8; MOST],
    cells: usize,
}

impl Ribbon {
    fn of(letters: &[u8], marks: &[u8]) -> Ribbon {
        let cells = letters.len();
        let mut ribbon = Ribbon {
            letters: [0; MOST],
            marks: [0; MOST],
            cells,
        };
        ribbon.letters[..cells].copy_from_slice(letters);
        ribbon.marks[..cells].copy_from_slice(marks);
        ribbon.marks[0] = FREE;
        ribbon
    }

    fn marks(&self) -> &[u8] {
        &self.marks[..self.cells]
    }

    /// How many orders there are: row by row, from the last mark to the first.
    fn orders(&self) -> u64 {
        let mut numbers = [0; MOST + 1];
        numbers[0] = 1;
        for (row, &mark) in self.marks().iter().rev().enumerate() {
            let row = &mut numbers[..row + 2];
            let all: u64 = row.iter().sum();
            let mut before = 0;
            for number in row {
                let here = *number;
                *number = match mark {
                    0 => all - before,
                    1 => before,
                    _ => all,
                };
                before += here;
            }
        }
        numbers[0]
    }

    /// Whether a cell may go first: no right step leads into it, no down step out of it.
    fn may_go(&self, place: usize) -> bool {
        let marks = self.marks();
        marks[place] != 0 && marks.get(place + 1) != Some(&1)
    }

    /// What a cell leaves that goes first.
    fn without(&self, place: usize) -> Ribbon {
        let mut left = *self;
        left.letters.copy_within(place + 1.., place);
        left.marks.copy_within(place + 1.., place);
        left.marks[place] = FREE;
        left.cells -= 1;
        left
    }

    /// How many orders there are in which a cell goes first.
    fn orders_from(&self, place: usize) -> u64 {
        if self.may_go(place) {
            self.without(place).orders()
        } else {
            0
        }
    }
}

fn check_small(count: usize) -> Answer<()> {
    refuse_if(count > MOST, 15, 0)
}

pub fn class_size(rank: usize, tableau: Tableau) -> Answer<u64> {
    check_counted_tableau(rank, tableau)?;
    check_small(tableau.letters.len())?;
    Ok(Ribbon::of(tableau.letters, tableau.marks).orders())
}

/// The word with a number below the size.
fn lay_word(mut ribbon: Ribbon, mut number: u64, word: &mut [u8]) {
    for letter in word {
        let mut place = 0;
        loop {
            let orders = ribbon.orders_from(place);
            if number < orders {
                break;
            }
            number -= orders;
            place += 1;
        }
        *letter = ribbon.letters[place];
        ribbon = ribbon.without(place);
    }
}

pub fn class_word(rank: usize, tableau: Tableau, number: u64, word: &mut [u8]) -> Answer<usize> {
    check_counted_tableau(rank, tableau)?;
    let cells = tableau.letters.len();
    check_small(cells)?;
    let ribbon = Ribbon::of(tableau.letters, tableau.marks);
    refuse_if(ribbon.orders() <= number, 16, 0)?;
    check_room(cells, word.len())?;
    lay_word(ribbon, number, &mut word[..cells]);
    Ok(cells)
}

pub fn class_number(rank: usize, word: &[u8]) -> Answer<u64> {
    check_word(rank, word)?;
    check_small(word.len())?;
    let (mut letters, mut marks, mut entries) = ([0; MOST], [0; MOST], [0; MOST]);
    lay_pair(rank, word, &mut letters, &mut marks, &mut entries);
    let mut ribbon = Ribbon::of(&letters[..word.len()], &marks[..word.len()]);
    let mut number = 0;
    for &letter in word {
        let mut place = 0;
        while ribbon.letters[place] != letter || !ribbon.may_go(place) {
            number += ribbon.orders_from(place);
            place += 1;
        }
        ribbon = ribbon.without(place);
    }
    Ok(number)
}
