//! The tableau line of a word in one call, and the whole output of the program `ribbon` for a text.

use super::checks::{check_room, check_word, Answer, Refusal};
use super::readers::read_word_line;
use super::tableaux::lay_reading;
use super::words::{lay_pair, set_and_rows};
use super::writers::{
    lay_numbers, lay_pair_line, lay_tableau_line, lay_word_line, write_refusal_line,
};

pub fn tableau_line_of_word(rank: usize, word: &[u8], out: &mut [u8]) -> Answer<usize> {
    check_word(rank, word)?;
    let mut letters = [0; 1024];
    let mut marks = [0; 1024];
    let mut entries = [0; 1024];
    let letters = &mut letters[..word.len()];
    let marks = &mut marks[..word.len()];
    lay_pair(rank, word, letters, marks, &mut entries);
    lay_tableau_line(rank, letters, marks, out)
}

/// The P, W and J lines of an accepted word, one after the other.
fn three_lines(rank: usize, word: &[u8], out: &mut [u8]) -> Answer<usize> {
    let mut letters = [0; 1024];
    let mut marks = [0; 1024];
    let mut entries = [0; 1024];
    let mut reading = [0; 1024];
    let letters = &mut letters[..word.len()];
    let marks = &mut marks[..word.len()];
    let entries = &mut entries[..word.len()];
    let reading = &mut reading[..word.len()];
    lay_pair(rank, word, letters, marks, entries);
    lay_reading(letters, marks, reading);
    let (set, rows) = set_and_rows(rank, word);
    let mut at = lay_pair_line(rank, letters, marks, entries, out)?;
    at += lay_word_line(rank, reading, &mut out[at..])?;
    at += lay_numbers(b'J', set as usize, rows, &mut out[at..])?;
    Ok(at)
}

/// The three lines of the word in a W line.
fn print_word(text: &[u8], out: &mut [u8]) -> Answer<usize> {
    if text.len() > 4096 {
        return Err(Refusal {
            number: 14,
            place: 4096,
        });
    }
    let mut word = [0; 1024];
    let (rank, count) = read_word_line(text, &mut word)?;
    three_lines(rank, &word[..count], out)
}

pub fn answer(text: &[u8], out: &mut [u8]) -> Answer<usize> {
    let mut lines = [0; 16384];
    let bytes = print_word(text, &mut lines)
        .or_else(|refused| write_refusal_line(refused.number, refused.place, &mut lines))?;
    check_room(bytes, out.len())?;
    out[..bytes].copy_from_slice(&lines[..bytes]);
    Ok(bytes)
}
