//! Changes of a text's bytes that lead to one verdict and code each.

use crate::rng::Rng;
use crate::targets::ByBytes;
use crate::text::{Event, LONGEST_TEXT, Word};

/// What the change leads to, and how it is made.
pub const BYTES: &[ByBytes] = &[
    ("clean", clean_of_longest_text),
    ("garbled 41", |rng, mut text| {
        text.resize(LONGEST_TEXT + rng.between(1, 300) as usize, b'\n');
        text
    }),
    ("garbled 42", |rng, text| {
        let length = rng.between(112, 200) as usize;
        with_line(rng, &text, &vec![b'x'; length])
    }),
    ("garbled 42", |_, mut text| {
        text.pop();
        text
    }),
    ("garbled 43", |rng, text| {
        let wrong: &[&[u8]] = &[b"", b"rule  threads", b"Rule threads", b"rule threads ", b"x"];
        replace_line(&text, rng.pick(&[1, 3]), rng.pick(wrong))
    }),
    ("garbled 44", |rng, text| {
        let wrong: &[&[u8]] = &[b"", b"close", b"close 0 0 0 0", b"settle 0 0 0 0 0 0", b"settle 0 0 0 0 0 "];
        let line = rng.pick(wrong);
        with_line(rng, &text, line)
    }),
    ("garbled 44", |rng, text| {
        let wrong: &[&[u8]] = &[b"", b"sc", b"sc 1 1", b"sc  1", b" sc 1", b"sc 1 "];
        replace_line(&text, 2, rng.pick(wrong))
    }),
    ("garbled 45", |rng, text| {
        let wrong: &[&[u8]] = &[b"Close 0 0 0 0 0", b" 0 0 0 0 0", b"report 0 0 0 0 0", b"drop a 00 0 0 0"];
        let line = rng.pick(wrong);
        with_line(rng, &text, line)
    }),
    ("garbled 45", |rng, text| {
        let wrong: &[&[u8]] = &[b"SC 1", b" 1", b"tsoo 00", b"ts 1", b"x 9"];
        replace_line(&text, 2, rng.pick(wrong))
    }),
    ("garbled 46", |rng, text| {
        let line = event_with_number(
            rng,
            &["", "00", "01", "1x", "+1", "-1", "18446744073709551616", "1\t", "99999999999999999999"],
        );
        with_line(rng, &text, &line)
    }),
    ("garbled 46", |rng, text| {
        let wrong: &[&[u8]] = &[b"sc ", b"sc 01", b"sc x", b"tso 18446744073709551616", b"rmo 1\r", b"pso -1"];
        replace_line(&text, 2, rng.pick(wrong))
    }),
    ("garbled 47", |rng, text| {
        let line = event_with_unused(rng);
        with_line(rng, &text, &line)
    }),
    ("garbled 47", |rng, text| {
        let line = format!("preset{}", format!(" {}", u64::MAX).repeat(5));
        with_line(rng, &text, line.as_bytes())
    }),
    ("garbled 44", |rng, text| with_line(rng, &text, &[b'x'; 111])),
    ("garbled 43", |rng, text| replace_line(&text, rng.pick(&[1, 3]), &[b'x'; 111])),
    ("garbled 42", |rng, text| {
        let line = format!("perform{}", format!(" {}", u64::MAX).repeat(5));
        with_line(rng, &text, line.as_bytes())
    }),
    ("garbled 48", |rng, text| {
        let ends: Vec<usize> = (0..text.len() - 1).filter(|at| text[*at] == b'\n').map(|at| at + 1).collect();
        let length = rng.pick(&ends);
        text[..if rng.one_in(8) { 0 } else { length }].to_vec()
    }),
    ("garbled 48", |rng, mut text| {
        let more: &[&[u8]] = &[b"\n", b" ", b"close 0 0 0 0 0\n", b"\0", &[b'x'; 120][..]];
        text.extend_from_slice(rng.pick(more));
        text
    }),
];

/// The text with a line more, somewhere after the third and before the close.
fn with_line(rng: &mut Rng, text: &[u8], line: &[u8]) -> Vec<u8> {
    let mut lines: Vec<&[u8]> = text.split_inclusive(|byte| *byte == b'\n').collect();
    let line = [line, b"\n"].concat();
    let at = rng.between(3, lines.len() as u64 - 1) as usize;
    lines.insert(at, &line);
    lines.concat()
}

/// The text with another line of this number.
fn replace_line(text: &[u8], number: usize, line: &[u8]) -> Vec<u8> {
    let mut lines: Vec<&[u8]> = text.split_inclusive(|byte| *byte == b'\n').collect();
    let line = [line, b"\n"].concat();
    lines[number - 1] = &line;
    lines.concat()
}

/// An event's line in which one number is written in one of these ways.
fn event_with_number(rng: &mut Rng, ways: &[&str]) -> Vec<u8> {
    let mut fields = [rng.pick(&Word::ALL).name(), "0", "0", "0", "0", "0"];
    fields[rng.between(1, 5) as usize] = rng.pick(ways);
    fields.join(" ").into_bytes()
}

/// An event's line in which one field that the event does not use is not 0.
fn event_with_unused(rng: &mut Rng) -> Vec<u8> {
    let words: Vec<Word> = Word::ALL.into_iter().filter(|word| *word != Word::Begin).collect();
    let word = rng.pick(&words);
    let unused: Vec<usize> = (0..5).filter(|field| !word.uses()[*field]).collect();
    let mut numbers = word.uses().map(|used| if used { rng.pick(&[0, 1, 600]) } else { 0 });
    numbers[rng.pick(&unused)] = rng.pick(&[1, 2, 1 << 32, u64::MAX]);
    Event::settle().with_numbers(numbers).to_string().trim_end().replace("settle", word.name()).into_bytes()
}

/// A clean text of exactly the longest length.
fn clean_of_longest_text(rng: &mut Rng, text: Vec<u8>) -> Vec<u8> {
    let mut lines: Vec<Vec<u8>> = text.split_inclusive(|byte| *byte == b'\n').map(<[u8]>::to_vec).collect();
    let mut left = LONGEST_TEXT - text.len();
    let shortest = b"settle 0 0 0 0 0\n".len();
    while left >= 2 * shortest {
        let place = rng.below(10);
        lines.insert(3, format!("preset 0 0 {place} 0 0\n").into_bytes());
        left -= shortest;
    }
    let value = "7".repeat(left - (shortest - 1));
    lines.insert(3, format!("preset 0 0 0 {value} 0\n").into_bytes());
    lines.concat()
}
