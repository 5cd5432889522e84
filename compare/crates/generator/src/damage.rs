//! Texts for loading that are damaged, or were never lawful.

use crate::{module::long_name, random::Random};

const WORDS: &[&str] = &[
    "module",
    "import",
    "export",
    "deffn",
    "defexpr",
    "expr",
    "var",
    "func",
    "return",
    "if",
    "block",
    "id",
    "lit",
    "call",
    "member",
    "array",
    "op",
    "assign",
    "arrow",
    "fn",
    "tagged",
    "jsx",
    "pat",
    "dflt",
    "decl",
    "prop",
    "attr",
    "kwimport",
    "hand",
    "str",
    "bool",
    "var",
    "let",
    "const",
    "true",
    "_s",
    "_c",
    "a",
    "Foo",
    "useA",
    "-",
    "-",
    "--",
    "0",
    "1",
    "2",
    "00",
    "01",
    "10",
    "65535",
    "65536",
    "4294967296",
    "18446744073709551617",
    "-1",
    "+1",
    "1a",
    "a-b",
    "\"x\"",
    "é",
    "\t",
    "\r",
    "\0",
    "\u{a0}",
];

/// A lawful text, damaged in one to four places; now and then with an item that
/// is nearly lawful, or something else altogether.
pub fn damaged(random: &mut Random, form: &[u8], length: usize) -> Vec<u8> {
    match random.below(40) {
        0 => return any_bytes(random),
        1 => return soup(random, b""),
        2 | 3 => return soup(random, format!("(module 1 {})\n", length + 1).as_bytes()),
        4..=8 => {
            let mut text = form.to_vec();
            crate::nearly(random, &mut text, length);
            return text;
        }
        _ => {}
    }
    let mut text = form.to_vec();
    if random.chance(60) {
        // Few lines, so that the damage is often near the end.
        let lines: Vec<&[u8]> = form.split_inclusive(|&b| b == b'\n').collect();
        let keep = random.between(1, 4);
        text = lines.iter().take(1 + keep).copied().collect::<Vec<_>>().concat();
    }
    for _ in 0..*random.pick(&[1, 1, 1, 2, 4]) {
        damage(random, &mut text, length);
    }
    text
}

/// Where each token starts and ends.
fn tokens(text: &[u8]) -> Vec<(usize, usize)> {
    let is_mark = |b: u8| matches!(b, b'(' | b')' | b' ' | b'\n');
    let mut found: Vec<(usize, usize)> = Vec::new();
    for (at, &byte) in text.iter().enumerate() {
        match found.last_mut() {
            Some(last) if !is_mark(byte) && !is_mark(text[at - 1]) => last.1 = at + 1,
            _ => found.push((at, at + 1)),
        }
    }
    found
}

fn damage(random: &mut Random, text: &mut Vec<u8>, length: usize) {
    let tokens = tokens(text);
    if tokens.is_empty() {
        text.extend_from_slice(token(random, length).as_bytes());
        return;
    }
    let (start, end) = *random.pick(&tokens);
    let (other, behind) = *random.pick(&tokens);
    match random.below(20) {
        0 => text.truncate(random.below(text.len() + 1)),
        1 => text.truncate(end),
        2 => drop(text.drain(start..end)),
        3 => {
            let copy = text[start..end].to_vec();
            text.splice(start..start, copy);
        }
        4 | 5 => drop(text.splice(start..end, token(random, length).into_bytes())),
        6 => drop(text.splice(start..start, token(random, length).into_bytes())),
        7 => {
            // Two tokens change places.
            let (first, second) = if start <= other {
                ((start, end), (other, behind))
            } else {
                ((other, behind), (start, end))
            };
            if first.1 <= second.0 {
                let changed = [
                    &text[..first.0],
                    &text[second.0..second.1],
                    &text[first.1..second.0],
                    &text[first.0..first.1],
                    &text[second.1..],
                ];
                *text = changed.concat();
            }
        }
        8 => {
            // Another token of the text in its place.
            let copy = text[other..behind].to_vec();
            text.splice(start..end, copy);
        }
        9 => {
            let at = random.below(text.len());
            text[at] = random.below(256) as u8;
        }
        10 => {
            let at = random.below(text.len() + 1);
            text.insert(at, *random.pick(b"() \n-a0\t\"\x80\xff"));
        }
        11 => drop(text.remove(random.below(text.len()))),
        12 | 13 => number(random, text, &tokens, length),
        14 => {
            // A name of another length, where a name stands.
            let names: Vec<(usize, usize)> = tokens
                .iter()
                .copied()
                .filter(|&(s, _)| text[s].is_ascii_alphabetic() && s > 0 && text[s - 1] == b' ')
                .collect();
            if !names.is_empty() {
                let (start, end) = *random.pick(&names);
                let long = *random.pick(&[1, 63, 64, 65, 66, 200]);
                text.splice(start..end, long_name(random, long).into_bytes());
            }
        }
        15 => deeper(random, text, &tokens),
        16 => {
            // A piece of the text again somewhere else.
            let (from, to) = (start.min(other), end.max(behind).min(start.min(other) + 200));
            let copy = text[from..to].to_vec();
            let at = tokens[random.below(tokens.len())].0;
            text.splice(at..at, copy);
        }
        17 => {
            // A piece left out.
            let (from, to) = (start.min(other), end.max(behind).min(start.min(other) + 60));
            text.drain(from..to);
        }
        18 => {
            // A run of anything.
            let run: Vec<u8> =
                (0..random.between(1, 12)).map(|_| random.between(33, 255) as u8).collect();
            text.splice(start..end, run);
        }
        _ => {
            // The lines change: one doubled, one dropped, or a line feed lost.
            let feeds: Vec<usize> = (0..text.len()).filter(|&i| text[i] == b'\n').collect();
            if !feeds.is_empty() {
                let at = *random.pick(&feeds);
                match random.below(3) {
                    0 => text.insert(at, b'\n'),
                    1 => drop(text.remove(at)),
                    _ => text.insert(at, b'\r'),
                }
            }
        }
    }
}

fn token(random: &mut Random, length: usize) -> String {
    match random.below(8) {
        0 => "(".into(),
        1 => ")".into(),
        2 => " ".into(),
        3 => "\n".into(),
        4 => random.between(0, length + 3).to_string(),
        _ => random.pick(WORDS).to_string(),
    }
}

/// Another number in place of one.
fn number(random: &mut Random, text: &mut Vec<u8>, tokens: &[(usize, usize)], length: usize) {
    let numbers: Vec<(usize, usize)> =
        tokens.iter().copied().filter(|&(s, _)| text[s].is_ascii_digit()).collect();
    if numbers.is_empty() {
        return;
    }
    let (start, end) = *random.pick(&numbers);
    let old: u64 = String::from_utf8_lossy(&text[start..end]).parse().unwrap_or(0);
    let new = match random.below(9) {
        0 => (old + 1).to_string(),
        1 => old.saturating_sub(1).to_string(),
        2 => "0".to_string(),
        3 => (length + 1).to_string(),
        4 => (length + 2).to_string(),
        5 => format!("0{old}"),
        6 => random.pick(&["65535", "65536", "99999", "4294967297"]).to_string(),
        7 => format!("{old}{}", "0".repeat(random.between(1, 30))),
        _ => random.below(length + 3).to_string(),
    };
    text.splice(start..end, new.into_bytes());
}

/// Puts a form into others, often past the deepest that may be.
fn deeper(random: &mut Random, text: &mut Vec<u8>, tokens: &[(usize, usize)]) {
    let inside: Vec<usize> = tokens
        .iter()
        .map(|&(s, _)| s)
        .filter(|&s| s > 0 && text[s] == b'(' && text[s - 1] == b' ')
        .collect();
    if inside.is_empty() {
        return;
    }
    let at = *random.pick(&inside);
    let (start, end) = *random.pick(&[
        ("(array 0 0 ", ")"),
        ("(op 0 0 ", ")"),
        ("(call 0 0 ", ")"),
        ("(arrow 0 0 ", ")"),
        ("(pat 0 0 ", ")"),
        ("(member 0 0 ", " (prop 0 0 a))"),
        ("(block 0 0 0 ", ")"),
    ]);
    let depth = *random.pick(&[1, 20, 55, 60, 61, 62, 63, 64, 65]);
    let behind = crate::form_end(text, at);
    let ends = end.repeat(depth);
    text.splice(behind..behind, ends.into_bytes());
    text.splice(at..at, start.repeat(depth).into_bytes());
}

fn any_bytes(random: &mut Random) -> Vec<u8> {
    (0..random.below(60)).map(|_| random.below(256) as u8).collect()
}

/// Tokens in no order.
fn soup(random: &mut Random, start: &[u8]) -> Vec<u8> {
    let mut text = start.to_vec();
    for _ in 0..random.between(1, 40) {
        if random.chance(50) {
            // As a form begins.
            text.extend_from_slice(format!("({} 0 0 ", random.pick(WORDS)).as_bytes());
        } else {
            text.extend_from_slice(token(random, 10).as_bytes());
        }
    }
    text
}
