//! The writers of lines. The bytes needed are counted, the room is judged, and only then a byte is written.

use super::checks::{check_pair, check_room, check_tableau, check_word, Answer};
use super::words::junctions;

/// The bytes of a comma and a number. Letters have at most two digits, so that no loop counts them.
pub fn field_size(value: usize) -> usize {
    match value {
        0..10 => 2,
        10..100 => 3,
        _ => {
            let mut size = 4;
            let mut left = value / 100;
            while left >= 10 {
                left /= 10;
                size += 1;
            }
            size
        }
    }
}

fn digit(value: usize) -> u8 {
    b'0' + value as u8
}

/// Writes a comma and a number from a place on; the place after them.
pub fn write_field(value: usize, out: &mut [u8], at: usize) -> usize {
    let end = at + field_size(value);
    let field = &mut out[at..end];
    match value {
        0..10 => field.copy_from_slice(&[b',', digit(value)]),
        10..100 => field.copy_from_slice(&[b',', digit(value / 10), digit(value % 10)]),
        _ => {
            let mut left = value;
            for byte in field.iter_mut().rev() {
                *byte = digit(left % 10);
                left /= 10;
            }
            field[0] = b',';
        }
    }
    end
}

/// The bytes of the fields of letters.
fn letters_size(letters: &[u8]) -> usize {
    letters.iter().map(|&x| field_size(usize::from(x))).sum()
}

/// Writes the letter of the kind and two fields of one line; the place after them.
pub fn write_head(kind: u8, first: usize, second: usize, out: &mut [u8]) -> usize {
    out[0] = kind;
    let at = write_field(first, out, 1);
    write_field(second, out, at)
}

/// The W line of an accepted word.
pub fn lay_word_line(rank: usize, word: &[u8], out: &mut [u8]) -> Answer<usize> {
    let need = 2 + field_size(rank) + field_size(word.len()) + letters_size(word);
    check_room(need, out.len())?;
    let mut at = write_head(b'W', rank, word.len(), out);
    for &x in word {
        at = write_field(usize::from(x), out, at);
    }
    out[at] = b'\n';
    Ok(need)
}

/// The bytes of the cells of a tableau: its letters, and a step before each but the first.
fn cells_size(letters: &[u8]) -> usize {
    letters_size(letters) + 2 * letters.len().saturating_sub(1)
}

/// Writes the cells of a tableau from a place on; the place after them.
fn write_cells(letters: &[u8], marks: &[u8], out: &mut [u8], from: usize) -> usize {
    let mut at = from;
    for (i, (&letter, &mark)) in letters.iter().zip(marks).enumerate() {
        if i > 0 {
            out[at] = b',';
            out[at + 1] = if mark == 0 { b'r' } else { b'd' };
            at += 2;
        }
        at = write_field(usize::from(letter), out, at);
    }
    at
}

/// The T line of a valid tableau.
pub fn lay_tableau_line(
    rank: usize,
    letters: &[u8],
    marks: &[u8],
    out: &mut [u8],
) -> Answer<usize> {
    let need = 2 + field_size(rank) + field_size(letters.len()) + cells_size(letters);
    check_room(need, out.len())?;
    let at = write_head(b'T', rank, letters.len(), out);
    let at = write_cells(letters, marks, out, at);
    out[at] = b'\n';
    Ok(need)
}

/// The bytes of the fields of entries.
fn entries_size(entries: &[u16]) -> usize {
    entries.iter().map(|&x| field_size(usize::from(x))).sum()
}

/// Writes the fields of entries from a place on; the place after them.
fn write_entries(entries: &[u16], out: &mut [u8], from: usize) -> usize {
    entries
        .iter()
        .fold(from, |at, &x| write_field(usize::from(x), out, at))
}

/// The P line of a valid pair.
pub fn lay_pair_line(
    rank: usize,
    letters: &[u8],
    marks: &[u8],
    entries: &[u16],
    out: &mut [u8],
) -> Answer<usize> {
    let items = cells_size(letters) + entries_size(entries);
    let need = 2 + field_size(rank) + field_size(letters.len()) + items;
    check_room(need, out.len())?;
    let at = write_head(b'P', rank, letters.len(), out);
    let at = write_cells(letters, marks, out, at);
    let at = write_entries(entries, out, at);
    out[at] = b'\n';
    Ok(need)
}

/// The N line of before, which stood beside a T line.
pub fn lay_recording_line(entries: &[u16], out: &mut [u8]) -> usize {
    out[0] = b'N';
    let at = write_field(entries.len(), out, 1);
    let at = write_entries(entries, out, at);
    out[at] = b'\n';
    at + 1
}

/// A line of two numbers.
pub fn lay_numbers(kind: u8, first: usize, second: usize, out: &mut [u8]) -> Answer<usize> {
    let need = 2 + field_size(first) + field_size(second);
    check_room(need, out.len())?;
    let at = write_head(kind, first, second, out);
    out[at] = b'\n';
    Ok(need)
}

pub fn write_word_line(rank: usize, word: &[u8], out: &mut [u8]) -> Answer<usize> {
    check_word(rank, word)?;
    lay_word_line(rank, word, out)
}

pub fn write_tableau_line(
    rank: usize,
    letters: &[u8],
    marks: &[u8],
    out: &mut [u8],
) -> Answer<usize> {
    check_tableau(rank, letters, marks)?;
    lay_tableau_line(rank, letters, marks, out)
}

pub fn write_pair_line(
    rank: usize,
    letters: &[u8],
    marks: &[u8],
    entries: &[u16],
    out: &mut [u8],
) -> Answer<usize> {
    check_pair(rank, letters, marks, entries)?;
    lay_pair_line(rank, letters, marks, entries, out)
}

pub fn write_junction_line(rank: usize, word: &[u8], out: &mut [u8]) -> Answer<usize> {
    let (set, rows) = junctions(rank, word)?;
    lay_numbers(b'J', set as usize, rows, out)
}

pub fn write_refusal_line(number: usize, place: usize, out: &mut [u8]) -> Answer<usize> {
    lay_numbers(b'E', number, place, out)
}
