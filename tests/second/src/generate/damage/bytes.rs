//! Damage to the characters of any text.
// Every kind has one type, also those that keep the length.
#![allow(clippy::ptr_arg)]

use super::{Random, ToBytes};

pub const KINDS: [ToBytes; 14] = [
    bit_flipped,
    any_character,
    other_digit,
    lower_case,
    line_feed_dropped,
    line_feed_added,
    carriage_return,
    strange_character,
    character_dropped,
    digit_added,
    truncated,
    good_line_added,
    bad_line_added,
    emptied,
];

fn bit_flipped(r: &mut Random, text: &mut Vec<u8>) -> Option<()> {
    let at = r.below(text.len());
    *text.get_mut(at)? ^= 1 << r.below(8);
    Some(())
}

fn any_character(r: &mut Random, text: &mut Vec<u8>) -> Option<()> {
    let at = r.below(text.len());
    *text.get_mut(at)? = r.below(256) as u8;
    Some(())
}

fn other_digit(r: &mut Random, text: &mut Vec<u8>) -> Option<()> {
    let at = one_of(r, text, |character| character != b'\n')?;
    text[at] = r.pick(b"0123456789ABCDEF")?;
    Some(())
}

fn lower_case(r: &mut Random, text: &mut Vec<u8>) -> Option<()> {
    let at = one_of(r, text, |character| character.is_ascii_uppercase())?;
    text[at] = text[at].to_ascii_lowercase();
    Some(())
}

fn line_feed_dropped(r: &mut Random, text: &mut Vec<u8>) -> Option<()> {
    let at = match r.once_in(2) {
        true => text.len().checked_sub(1)?,
        false => one_of(r, text, |character| character == b'\n')?,
    };
    text.remove(at);
    Some(())
}

fn line_feed_added(r: &mut Random, text: &mut Vec<u8>) -> Option<()> {
    let at = match r.once_in(2) {
        true => text.len(),
        false => r.below(text.len()),
    };
    text.insert(at, b'\n');
    Some(())
}

fn carriage_return(r: &mut Random, text: &mut Vec<u8>) -> Option<()> {
    let at = one_of(r, text, |character| character == b'\n')?;
    text.insert(at, b'\r');
    Some(())
}

fn strange_character(r: &mut Random, text: &mut Vec<u8>) -> Option<()> {
    let at = r.below(text.len() + 1);
    text.insert(at, r.pick(b"\0 \t\x7F\xFFGg/:@`-,;#")?);
    Some(())
}

fn character_dropped(r: &mut Random, text: &mut Vec<u8>) -> Option<()> {
    let at = one_of(r, text, |_| true)?;
    text.remove(at);
    Some(())
}

fn digit_added(r: &mut Random, text: &mut Vec<u8>) -> Option<()> {
    let at = r.below(text.len() + 1);
    text.insert(at, r.pick(b"0123456789ABCDEF")?);
    Some(())
}

fn truncated(r: &mut Random, text: &mut Vec<u8>) -> Option<()> {
    let length = r.below(text.len());
    text.truncate(length);
    Some(())
}

fn good_line_added(r: &mut Random, text: &mut Vec<u8>) -> Option<()> {
    let lines: [&[u8]; 5] = [b"FF\n", b"00\n", b"030000\n", b"1401\n", b"0101000101\n"];
    text.extend(r.pick(&lines)?);
    Some(())
}

fn bad_line_added(r: &mut Random, text: &mut Vec<u8>) -> Option<()> {
    let lines: [&[u8]; 6] = [b"F", b"FF", b"F\n", b"\r\n", b"ff\n", b"1401 \n"];
    text.extend(r.pick(&lines)?);
    Some(())
}

/// Rare, since every emptied text is the same case.
fn emptied(r: &mut Random, text: &mut Vec<u8>) -> Option<()> {
    r.once_in(20).then(|| text.clear())
}

/// The place of any character that is of a sort.
fn one_of(r: &mut Random, text: &[u8], sort: fn(u8) -> bool) -> Option<usize> {
    let places: Vec<usize> = (0..text.len()).filter(|at| sort(text[*at])).collect();
    r.pick(&places)
}
