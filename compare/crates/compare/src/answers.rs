//! A fixed list of answers of the published pass, on cases where it and the
//! rules agree: for each misreading of a rule small cases that show it, the
//! neighbourhood of each fault, the inputs run through Babel too, and modules as
//! they are generated.

use std::{collections::HashSet, fs, path::Path};

use case::{sizes, Case, Options};
use reference::{
    wrong::{Judge, Wrong, ALL as MISREADINGS},
    Faults, Rules,
};

use crate::{
    check::{by_oracle, by_rules, has_wrapper, Printed, ALL},
    shrink::shrink,
    table::{answer, read, write, Entry},
};

/// Made from JavaScript by `babel/run.js`.
const INPUTS: &[u8] = include_bytes!("../../../babel/cases.txt");

const EACH: usize = 2;
const GENERATED: usize = 100;
const LARGE: usize = 6;

struct List {
    entries: Vec<(Entry, String)>,
    seen: HashSet<Vec<u8>>,
}

impl List {
    /// Takes a case on which the published pass and the rules agree.
    fn take(&mut self, name: String, case: &Case) -> bool {
        let Some(printed) = agreed(case) else { return false };
        let mut case = case.clone();
        let loaded = case.form.iter().filter(|&&b| b == b'(').count();
        let (nodes, size) = sizes(&printed);
        let names = sizes(&String::from_utf8_lossy(&case.form)).1;
        let least = nodes.max(loaded).max(size.max(names).div_ceil(6));
        case.options.nodes = (least.div_ceil(64) * 64).clamp(64, 8192);
        let entry = Entry { name, case, room: 65_536, cuts: false };
        let key = [&entry.case.form[..], &entry.case.source, &case::write_notes(&entry.case.notes)]
            .concat();
        if printed.len() > 65_536 || !self.seen.insert(key) {
            return false;
        }
        self.entries.push((entry, printed));
        true
    }
}

/// What the published pass prints, if it has a say and the rules say the same.
fn agreed(case: &Case) -> Option<String> {
    let plain = |b: &u8| matches!(b, b' '..=b'~' | b'\n' | b'\t');
    if !case.source.iter().all(plain) || case.notes.len() > 20 {
        return None;
    }
    let rules = by_rules(case, Rules::default()).ok()?;
    let module = reference::load(&case.form, &case.source, case.options.nodes).ok()?;
    if has_wrapper(&module, &case.options) {
        return None;
    }
    let published = by_oracle(case).ok()?.ok()?;
    let faulty = by_rules(case, Rules::with_faults(ALL)).ok()?;
    (published == rules && faulty == rules).then_some(published)
}

fn shows(case: &Case, wrong: Wrong) -> bool {
    match agreed(case) {
        Some(printed) => by_rules(case, Rules { wrong, ..Rules::default() }) != Ok(printed),
        None => false,
    }
}

fn letter(i: usize) -> char {
    (b'a' + (i % 26) as u8) as char
}

pub fn write_answers(folder: &Path, seed: u64) -> Result<String, String> {
    let mut list = List { entries: Vec::new(), seen: HashSet::new() };
    for entry in read(INPUTS)? {
        list.take(format!("babel-{}", entry.name), &entry.case);
    }
    let inputs = list.entries.len();
    for (i, &(wrong, judge, _)) in MISREADINGS.iter().enumerate() {
        if judge == Judge::Pass {
            misread(&mut list, i + 1, wrong, seed);
        }
    }
    let shown = list.entries.len() - inputs;
    for fault in 0..3 {
        near_fault(&mut list, fault, seed);
    }
    let near = list.entries.len() - inputs - shown;
    let (mut small, mut large) = (0, 0);
    for index in 0..100_000 {
        if small == GENERATED && large == LARGE {
            break;
        }
        let case = generator::generate(seed + 100, index).case;
        let length = case.form.len();
        let signs =
            |case: &Case| agreed(case).is_some_and(|printed| printed.contains("(hand 0 0 _s"));
        if case.source.len() > 800 {
            continue;
        }
        if (200..1200).contains(&length) && small < GENERATED && signs(&case) {
            small += usize::from(list.take(format!("generated-{}", small + 1), &case));
        } else if (6000..12_000).contains(&length) && large < LARGE && signs(&case) {
            large += usize::from(list.take(format!("large-{}", large + 1), &case));
        }
    }
    let (mut stdin, mut stdout) = (Vec::new(), Vec::new());
    for (entry, printed) in &list.entries {
        write(entry, &mut stdin);
        answer(entry, printed, &mut stdout);
    }
    fs::create_dir_all(folder).map_err(|e| e.to_string())?;
    fs::write(folder.join("stdin"), &stdin).map_err(|e| e.to_string())?;
    fs::write(folder.join("stdout"), &stdout).map_err(|e| e.to_string())?;
    crate::table::check(&stdin, &stdout)?;
    let by_pass = MISREADINGS.iter().filter(|&&(_, judge, _)| judge == Judge::Pass);
    let missed: Vec<&str> = by_pass
        .filter(|&&(wrong, ..)| !list.entries.iter().any(|(entry, _)| shows(&entry.case, wrong)))
        .map(|&(_, _, words)| words)
        .collect();
    if !missed.is_empty() {
        return Err(format!("shown by no case: {}", missed.join("; ")));
    }
    Ok(format!(
        "{} cases of seed {seed}: {inputs} run through Babel too, {shown} that show a misreading, \
         {near} beside a fault, {small} generated, {large} large; {} and {} bytes",
        list.entries.len(),
        stdin.len(),
        stdout.len()
    ))
}

/// Small cases that show a misreading.
fn misread(list: &mut List, number: usize, wrong: Wrong, seed: u64) {
    let mut taken = 0;
    for index in 0..20_000 {
        let case = generator::generate(seed + number as u64, index).case;
        if case.form.len() > 2500 || case.source.len() > 800 || !shows(&case, wrong) {
            continue;
        }
        let small = shrink(&case, &mut |case| shows(case, wrong));
        if list.take(format!("misread-{number}{}", letter(taken)), &small) {
            taken += 1;
        }
        if taken == EACH || index > 6000 {
            return;
        }
    }
}

const FAULTS: [Faults; 3] = [
    Faults { hi: true, attr: false, key: false },
    Faults { hi: false, attr: true, key: false },
    Faults { hi: false, attr: false, key: true },
];

/// Whether a case is instrumented otherwise with a fault than by the rules.
fn faulty(case: &Case, fault: usize) -> bool {
    let rules = by_rules(case, Rules::default());
    let loads = reference::load(&case.form, &case.source, case.options.nodes)
        .is_ok_and(|module| !has_wrapper(&module, &case.options));
    rules.is_ok() && loads && by_rules(case, Rules::with_faults(FAULTS[fault])) != rules
}

/// Small cases that show a fault, made from generated ones.
fn with_fault(fault: usize, seed: u64) -> impl Iterator<Item = Case> {
    (0..20_000)
        .map(move |index| generator::generate(seed + 1000, index).case)
        .filter(move |case| case.form.len() <= 1500 && faulty(case, fault))
        .map(move |case| shrink(&case, &mut |case| faulty(case, fault)))
}

/// The smallest input found for each fault, with what comes of it.
pub fn show_faults(seed: u64) -> String {
    let mut out = String::new();
    for (fault, name) in
        ["trailing notes at hi", "what an attr holds", "a signed argument's key"].iter().enumerate()
    {
        let size = |case: &Case| {
            let nodes = case.form.iter().filter(|&&b| b == b'(').count();
            (nodes, case.form.len() + case.source.len())
        };
        let Some(case) = with_fault(fault, seed).take(30).min_by_key(size) else { continue };
        let text = |bytes: &[u8]| String::from_utf8_lossy(bytes).into_owned();
        let shown = |printed: Printed| printed.unwrap_or_else(|r| format!("{r:?}"));
        out.push_str(&format!(
            "{name}: {} nodes\n{}source {:?}, notes {:?}\nthe Rust:\n{}the rules:\n{}\n",
            size(&case).0,
            text(&case.form),
            text(&case.source),
            text(&case::write_notes(&case.notes)),
            by_oracle(&case).map_or_else(|e| e, shown),
            shown(by_rules(&case, Rules::default()))
        ));
    }
    out
}

/// Cases one small step from showing a fault.
fn near_fault(list: &mut List, fault: usize, seed: u64) {
    let name = ["note", "attr", "key"][fault];
    let mut taken = 0;
    for small in with_fault(fault, seed) {
        for near in neighbours(&small, fault) {
            let named = format!("near-{name}-{}", letter(taken));
            taken += usize::from(taken < 12 && list.take(named, &near));
        }
        if taken >= 12 {
            return;
        }
    }
}

fn neighbours(case: &Case, fault: usize) -> Vec<Case> {
    let form = String::from_utf8_lossy(&case.form).into_owned();
    let with = |form: String| Case { form: form.into_bytes(), ..case.clone() };
    let mut found = Vec::new();
    match fault {
        0 => {
            for i in 0..case.notes.len() {
                for (side, step) in [(0, 0i64), (1, -1), (1, 1), (0, -1), (0, 1)] {
                    let mut near = case.clone();
                    let position = near.notes[i].position as i64 + step;
                    near.notes[i].side = side;
                    near.notes[i].position = position.max(1) as u64;
                    found.push(near);
                }
            }
        }
        1 => {
            // What the attribute holds, as a child; and an attribute beside it.
            if let Some(at) = form.find("(attr ") {
                let inner = at + 6 + form[at + 6..].find('(').unwrap_or(0);
                let end = end_of(&form, inner);
                let behind = end_of(&form, at);
                found.push(with(format!(
                    "{}{}{}",
                    &form[..at],
                    &form[inner..end],
                    &form[behind..]
                )));
                let lit = format!("{}(lit 0 0){}", &form[..inner], &form[end..]);
                found.push(with(lit));
                let lit = format!(
                    "{}(lit 0 0)) {}{}",
                    &form[..inner],
                    &form[inner..end],
                    &form[behind..]
                );
                found.push(with(lit));
            }
        }
        _ => {
            for (from, to) in [
                (" useState ", " useMemo "),
                (" useReducer ", " useMemo "),
                (" useState ", " useReducer "),
                (" useReducer ", " useState "),
                (" useA ", " foo "),
                (" useRef ", " foo "),
                (" useState ", " use "),
            ] {
                for (at, _) in form.match_indices(from) {
                    let (before, behind) = (&form[..at], &form[at + from.len()..]);
                    found.push(with(format!("{before}{to}{behind}")));
                }
            }
        }
    }
    for near in &mut found {
        near.options = Options { nodes: 8192, ..near.options.clone() };
    }
    found
}

/// Behind the form that starts there.
fn end_of(form: &str, at: usize) -> usize {
    let mut open = 0;
    for (i, byte) in form.bytes().enumerate().skip(at) {
        match byte {
            b'(' => open += 1,
            b')' => open -= 1,
            _ => {}
        }
        if open == 0 {
            return i + 1;
        }
    }
    form.len()
}
