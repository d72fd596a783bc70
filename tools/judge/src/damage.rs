//! Random damage to the bytes of a text.

use crate::rng::Rng;
use crate::text::LONGEST_TEXT;

/// Damages the text in one random way.
pub fn damage(rng: &mut Rng, text: &mut Vec<u8>) {
    if text.is_empty() {
        text.push(rng.draw() as u8);
        return;
    }
    let at = rng.index(text.len());
    match rng.below(14) {
        0 => flip_bit(rng, text),
        1 => text[at] = rng.draw() as u8,
        2 => drop(text.remove(at)),
        3 => text.insert(at, rng.pick(b" \n\t\r0x-\0\xff")),
        4 => text.truncate(at),
        5 => drop(text.pop()),
        6 => text.extend_from_slice(rng.pick(&[&b"\n"[..], b"x", b"close 0 0 0 0 0\n", b" ", b"\0"])),
        7..=9 => damage_field(rng, text),
        10..=12 => damage_lines(rng, text),
        _ => {
            let length = rng.pick(&[LONGEST_TEXT, LONGEST_TEXT + 1, LONGEST_TEXT + 2]);
            let filler = rng.pick(b"\n0x ");
            text.resize(length, filler);
        }
    }
}

/// Flips one bit of a text that is not empty.
pub fn flip_bit(rng: &mut Rng, text: &mut [u8]) {
    let at = rng.index(text.len());
    text[at] ^= 1 << rng.below(8);
}

/// Puts something else into the place of one field.
fn damage_field(rng: &mut Rng, text: &mut Vec<u8>) {
    let parts: Vec<usize> = (0..text.len()).filter(|at| matches!(text[*at], b' ' | b'\n')).collect();
    if parts.is_empty() {
        return;
    }
    let which = rng.index(parts.len());
    let start = if which == 0 { 0 } else { parts[which - 1] + 1 };
    let field = text[start..parts[which]].to_vec();
    let changed: Vec<u8> = match rng.below(12) {
        0 => Vec::new(),
        1 => [b"0", &field[..]].concat(),
        2 => [b"+", &field[..]].concat(),
        3 => [b"-", &field[..]].concat(),
        4 => [&field[..], b" 0"].concat(),
        5 => [&field[..], b" "].concat(),
        6 => b"18446744073709551615".to_vec(),
        7 => b"18446744073709551616".to_vec(),
        8 => b"99999999999999999999".to_vec(),
        9 => field.to_ascii_uppercase(),
        10 => b"1".to_vec(),
        _ => vec![b'1'; rng.between(1, 130) as usize],
    };
    text.splice(start..parts[which], changed);
}

/// Removes, repeats, exchanges or joins lines.
fn damage_lines(rng: &mut Rng, text: &mut Vec<u8>) {
    let mut lines: Vec<Vec<u8>> = text.split_inclusive(|byte| *byte == b'\n').map(<[u8]>::to_vec).collect();
    let (at, to) = (rng.index(lines.len()), rng.index(lines.len()));
    match rng.below(6) {
        0 => drop(lines.remove(at)),
        1 => lines.insert(to, lines[at].clone()),
        2 => lines.swap(at, to),
        3 => lines[at] = b"\n".to_vec(),
        4 => drop(lines[at].pop()),
        _ => {
            let length = rng.between(108, 116) as usize;
            lines[at] = vec![rng.pick(b"x0 "); length];
            lines[at][length - 1] = b'\n';
        }
    }
    *text = lines.concat();
}
