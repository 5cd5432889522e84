//! Smaller cases that still differ.

use case::{Case, Options};

/// Leaves out what can be left out; `differs` tells whether a case still shows
/// a difference.
pub fn shrink(case: &Case, differs: &mut dyn FnMut(&Case) -> bool) -> Case {
    let mut best = case.clone();
    let mut tries = 20_000;
    loop {
        let before = best.clone();
        for way in [items, notes, options, left_out, lifted, dummies, source] {
            let mut i = 0;
            while let Some(smaller) = way(&best, i) {
                if tries == 0 {
                    return best;
                }
                tries -= 1;
                if smaller != best && differs(&smaller) {
                    best = smaller;
                } else {
                    i += 1;
                }
            }
        }
        if best == before {
            return best;
        }
    }
}

/// Without the i-th line behind the first.
fn items(case: &Case, i: usize) -> Option<Case> {
    let mut lines: Vec<&[u8]> = case.form.split_inclusive(|&b| b == b'\n').collect();
    if i + 1 >= lines.len() {
        return None;
    }
    lines.remove(i + 1);
    Some(Case { form: lines.concat(), ..case.clone() })
}

fn notes(case: &Case, i: usize) -> Option<Case> {
    if i >= case.notes.len() {
        return None;
    }
    let mut smaller = case.clone();
    smaller.notes.remove(i);
    Some(smaller)
}

fn options(case: &Case, i: usize) -> Option<Case> {
    let plain = Options::default();
    let mut smaller = case.clone();
    let options = &mut smaller.options;
    match i {
        0 => options.reg = plain.reg,
        1 => options.sig = plain.sig,
        2 => options.nodes = plain.nodes,
        3 => options.dev = plain.dev,
        4 => options.given = plain.given,
        _ => return None,
    }
    Some(smaller)
}

/// Where the forms inside items start and end.
fn inside(form: &[u8]) -> Vec<(usize, usize)> {
    let mut open = Vec::new();
    let mut found = Vec::new();
    for (at, byte) in form.iter().enumerate() {
        match byte {
            b'(' => open.push(at),
            b')' => {
                if let Some(start) = open.pop() {
                    found.push((start, at + 1));
                }
            }
            _ => {}
        }
    }
    found.retain(|&(start, _)| start > 0 && form[start - 1] == b' ');
    found.sort_by_key(|&(start, end)| (end - start, start));
    found.reverse();
    found
}

fn replaced(case: &Case, start: usize, end: usize, by: &[u8]) -> Case {
    let form = [&case.form[..start], by, &case.form[end..]].concat();
    Case { form, ..case.clone() }
}

fn left_out(case: &Case, i: usize) -> Option<Case> {
    let (start, end) = *inside(&case.form).get(i)?;
    Some(replaced(case, start - 1, end, b""))
}

/// A form replaced by one inside it.
fn lifted(case: &Case, i: usize) -> Option<Case> {
    let forms = inside(&case.form);
    let mut pairs = Vec::new();
    for &(start, end) in forms.iter().take(300) {
        for &(low, high) in forms.iter().take(300) {
            if start < low && high < end {
                pairs.push((start, end, low, high));
            }
        }
    }
    let &(start, end, low, high) = pairs.get(i)?;
    Some(replaced(case, start, end, &case.form[low..high]))
}

/// A span made `0 0`.
fn dummies(case: &Case, i: usize) -> Option<Case> {
    let starts: Vec<usize> = (0..case.form.len()).filter(|&at| case.form[at] == b'(').collect();
    let start = *starts.get(i)?;
    let mut blanks = (start..case.form.len()).filter(|&at| b" )".contains(&case.form[at]));
    let (first, _, end) = (blanks.next()?, blanks.next()?, blanks.next()?);
    Some(replaced(case, first, end, b" 0 0"))
}

fn source(case: &Case, i: usize) -> Option<Case> {
    let length = case.source.len();
    let less = *[length, length / 2, 10, 1].get(i)?;
    let source = case.source[..length.saturating_sub(less)].to_vec();
    Some(Case { source, ..case.clone() })
}
