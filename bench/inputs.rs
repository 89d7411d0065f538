//! What is measured on: words drawn by a repeatable generator, with all that belongs to them, and the memory that is lent.

use crate::plain::checks::Tableau;
use crate::plain::classes::class_number;
use crate::plain::insertion;
use crate::plain::runs::write_run_line;
use crate::plain::tableaux::column_reading;
use crate::plain::writers::{
    lay_recording_line, write_pair_line, write_tableau_line, write_word_line,
};
use std::ops::Deref;

/// Xorshift, 64 bits.
struct Draws(u64);

impl Draws {
    /// A number from 0 to below - 1.
    fn below(&mut self, below: usize) -> usize {
        self.0 ^= self.0 << 13;
        self.0 ^= self.0 >> 7;
        self.0 ^= self.0 << 17;
        (self.0 >> 33) as usize % below
    }

    /// So many letters from `least` to `largest`.
    fn word(&mut self, count: usize, least: usize, largest: usize) -> Vec<u8> {
        (0..count)
            .map(|_| (least + self.below(largest - least + 1)) as u8)
            .collect()
    }
}

/// A word with its tableau, letter counts included, and its recording ribbon.
pub struct Pair {
    pub word: Vec<u8>,
    pub letters: Vec<u8>,
    pub marks: Vec<u8>,
    pub entries: Vec<u16>,
    pub counts: [u16; 64],
}

impl Pair {
    fn new(rank: usize, word: Vec<u8>) -> Pair {
        let mut letters = vec![0; word.len()];
        let mut marks = vec![0; word.len()];
        let mut entries = vec![0; word.len()];
        let mut counts = [0; 64];
        let made = insertion::pair_of_word(
            rank,
            &word,
            &mut letters,
            &mut marks,
            &mut entries,
            &mut counts,
        );
        assert!(made.is_ok(), "drawn word refused");
        Pair {
            word,
            letters,
            marks,
            entries,
            counts,
        }
    }

    pub fn tableau(&self) -> Tableau<'_> {
        Tableau {
            letters: &self.letters,
            marks: &self.marks,
            counts: &self.counts,
        }
    }
}

/// All inputs of one rank and number of letters: a word with what belongs to it, and others.
pub struct Input {
    pub rank: usize,
    pub count: usize,
    own: Pair,
    /// Another word of the same class, so that both its counts and its junction set must be looked at.
    pub other: Vec<u8>,
    /// The pair of all letters of the word but the last.
    pub shorter: Pair,
    /// The pairs of the word's two halves, the factors of a product.
    pub front: Pair,
    pub back: Pair,
    /// Raising is defined at rank - 1 and changes the last letter, so that every scan goes to the end.
    pub raising: Pair,
    /// Lowering is defined at 1 and changes the first letter, likewise.
    pub lowering: Pair,
    /// A window whose oldest letter has the first cell, so that every cell moves when it leaves.
    pub first_leaves: Pair,
    /// A window whose oldest letter has the last cell, so that all are searched for it.
    pub last_leaves: Pair,
    /// The number of the word in its class, where it has at most 20 letters; else 0.
    pub number: u64,
    pub word_line: Vec<u8>,
    pub tableau_line: Vec<u8>,
    pub run_line: Vec<u8>,
    pub pair_line: Vec<u8>,
    /// The N line of before, for the converter.
    pub recording_line: Vec<u8>,
}

/// What a writer of a line writes.
fn line(write: impl Fn(&mut [u8]) -> Option<usize>) -> Vec<u8> {
    let mut bytes = vec![0; 16_384];
    let count = write(&mut bytes).expect("a line of a drawn word");
    bytes.truncate(count);
    bytes
}

impl Input {
    pub fn new(rank: usize, count: usize) -> Input {
        let mut draws = Draws(0x9e37_79b9_7f4a_7c15 ^ (rank * 65_536 + count) as u64);
        let own = Pair::new(rank, draws.word(count, 1, rank));
        let (word, letters, marks, entries) = (&own.word, &own.letters, &own.marks, &own.entries);
        let mut other = vec![0; count];
        let read = column_reading(rank, own.tableau(), &mut other);
        assert!(read.is_ok(), "tableau of a drawn word refused");
        let mut raised = draws.word(count, 1, rank - 2);
        raised[count - 1] = rank as u8;
        let mut lowered = draws.word(count, 3, rank);
        lowered[0] = 1;
        let mut small = draws.word(count, 1, rank);
        small[0] = 1;
        let mut large = draws.word(count, 1, rank - 1);
        large[0] = rank as u8;
        Input {
            rank,
            count,
            other,
            shorter: Pair::new(rank, word[..count - 1].to_vec()),
            front: Pair::new(rank, word[..count / 2].to_vec()),
            back: Pair::new(rank, word[count / 2..].to_vec()),
            raising: Pair::new(rank, raised),
            lowering: Pair::new(rank, lowered),
            first_leaves: Pair::new(rank, small),
            last_leaves: Pair::new(rank, large),
            number: class_number(rank, word).unwrap_or(0),
            word_line: line(|out| write_word_line(rank, word, out).ok()),
            tableau_line: line(|out| write_tableau_line(rank, letters, marks, out).ok()),
            run_line: line(|out| write_run_line(rank, letters, marks, out).ok()),
            pair_line: line(|out| write_pair_line(rank, letters, marks, entries, out).ok()),
            recording_line: line(|out| Some(lay_recording_line(entries, out))),
            own,
        }
    }
}

/// So that the word of an input is `input.word`, and so for its tableau and entries.
impl Deref for Input {
    type Target = Pair;

    fn deref(&self) -> &Pair {
        &self.own
    }
}

/// The memory that operations write into, longer than any of them needs.
#[derive(Clone, PartialEq)]
pub struct Lent {
    pub letters: Vec<u8>,
    pub marks: Vec<u8>,
    pub entries: Vec<u16>,
    pub counts: [u16; 64],
    pub text: Vec<u8>,
}

impl Lent {
    pub fn new() -> Lent {
        Lent {
            letters: vec![170; 1100],
            marks: vec![170; 1100],
            entries: vec![43_690; 1100],
            counts: [43_690; 64],
            text: vec![170; 16_500],
        }
    }

    /// A pair in the first cells.
    pub fn holding(pair: &Pair) -> Lent {
        let mut lent = Lent::new();
        let count = pair.word.len();
        lent.letters[..count].copy_from_slice(&pair.letters);
        lent.marks[..count].copy_from_slice(&pair.marks);
        lent.entries[..count].copy_from_slice(&pair.entries);
        lent.counts = pair.counts;
        lent
    }

    /// A word in the first letters.
    pub fn holding_word(pair: &Pair) -> Lent {
        let mut lent = Lent::new();
        lent.letters[..pair.word.len()].copy_from_slice(&pair.word);
        lent
    }
}
