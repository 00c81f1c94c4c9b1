//! The text of a sheet: a line for eight words.

use crate::check::M;
use crate::tables::RECORD;
use crate::Refused;

/// Reads a text into the words. Answers how many were read.
pub fn read(text: &[u8], words: &mut [i64]) -> Result<usize, Refused> {
    // Two bytes a word are the fewest. Words past the output's room are judged and counted, not kept.
    let mut kept = Vec::with_capacity(words.len().min(text.len() / 2));
    let mut rest = text;
    let mut lines = 0;
    while !rest.is_empty() {
        let (line, after) = line(rest).ok_or(Refused::at(14, lines))?;
        if kept.len() + RECORD <= words.len() {
            kept.extend_from_slice(&line);
        }
        rest = after;
        lines += 1;
    }
    let count = lines * RECORD;
    words.get_mut(..count).ok_or(Refused::plain(15))?.copy_from_slice(&kept);
    Ok(count)
}

/// The eight words of the first line, and the text after it.
fn line(mut text: &[u8]) -> Option<([i64; RECORD], &[u8])> {
    let mut words = [0; RECORD];
    for (place, word) in words.iter_mut().enumerate() {
        let (value, rest) = decimal(text)?;
        let end = if place + 1 < RECORD { b'\t' } else { b'\n' };
        text = rest.strip_prefix(&[end])?;
        *word = value;
    }
    Some((words, text))
}

/// The decimal at the text's head, and the text after it.
fn decimal(text: &[u8]) -> Option<(i64, &[u8])> {
    let (negative, digits) = match text.strip_prefix(b"-") {
        Some(digits) => (true, digits),
        None => (false, text),
    };
    let (&first, mut rest) = digits.split_first()?;
    if !first.is_ascii_digit() {
        return None;
    }
    let mut size = (first - b'0') as i64;
    if size == 0 {
        // What follows has to be a tab or LF, so a leading zero is refused there.
        return (!negative).then_some((0, rest));
    }
    while let Some((&digit, after)) = rest.split_first() {
        if !digit.is_ascii_digit() {
            break;
        }
        size = size * 10 + (digit - b'0') as i64;
        if size > M {
            return None;
        }
        rest = after;
    }
    Some((if negative { -size } else { size }, rest))
}

/// Writes the words as text. Answers how many bytes were written.
pub fn write(words: &[i64], text: &mut [u8]) -> Result<usize, Refused> {
    let mut length = 0;
    for (line, record) in words.chunks(RECORD).enumerate() {
        if record.len() < RECORD {
            return Err(Refused::at(14, line));
        }
        for &word in record {
            if !(-M..=M).contains(&word) {
                return Err(Refused::at(14, line));
            }
            length += width(word) + 1;
        }
    }
    let text = text.get_mut(..length).ok_or(Refused::plain(15))?;
    let mut start = 0;
    for (place, &word) in words.iter().enumerate() {
        let end = start + width(word);
        put(word, &mut text[start..end]);
        text[end] = if place % RECORD + 1 < RECORD { b'\t' } else { b'\n' };
        start = end + 1;
    }
    Ok(length)
}

/// How many bytes the word's decimal has.
fn width(word: i64) -> usize {
    let digits = word.unsigned_abs().checked_ilog10().unwrap_or(0) as usize + 1;
    digits + (word < 0) as usize
}

/// Writes the word's decimal, which fills the bytes.
fn put(word: i64, bytes: &mut [u8]) {
    let mut size = word.unsigned_abs();
    if word < 0 {
        bytes[0] = b'-';
    }
    for byte in bytes[(word < 0) as usize..].iter_mut().rev() {
        *byte = b'0' + (size % 10) as u8;
        size /= 10;
    }
}
