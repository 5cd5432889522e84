//! Seeded random cases: modules of every kind, from one node to the limits, with
//! sources, notes and options.

mod damage;
mod module;
mod random;

use case::{Case, Note, Options};

pub use damage::damaged;
use module::{long_name, Taste, Writer};
pub use random::Random;

pub struct Generated {
    pub case: Case,
    /// Where the form was spoilt, if it was: all before is as in a lawful text.
    pub spoilt: Option<usize>,
}

/// The case of this number among those of this seed.
pub fn generate(seed: u64, index: u64) -> Generated {
    let random = &mut Random::new(seed, index);
    let most = match random.weighted(&[200, 460, 250, 80, 10]) {
        0 => random.between(1, 14),
        1 => random.between(10, 60),
        2 => random.between(60, 250),
        3 => random.between(250, 1000),
        _ => random.between(1000, 8300),
    };
    let source = source(random);
    let taste = Taste::new(random, most, source.len());
    let room = if random.chance(1) { 68 } else { 64 };
    let chain = random.chance(3);
    let mut writer = Writer::new(random, taste, most, source.len());
    writer.module(room);
    let Writer { out: mut form, mut nodes, mut spans, .. } = writer;
    if chain {
        let deep = random.between(50, 68);
        nodes += deep;
        form.push_str(&chain_of(random, deep));
        spans.push((1, 1));
    }
    let notes = notes(random, &spans, source.len());
    let way = random.below(100);
    let options = options(random, nodes, way < 18);
    let mut form = form.into_bytes();
    let spoilt = match way {
        0..=5 => Some(spoil(random, &mut form)),
        6..=17 => Some(nearly(random, &mut form, source.len())),
        _ => None,
    };
    Generated { case: Case { form, source, notes, options }, spoilt }
}

fn source(random: &mut Random) -> Vec<u8> {
    let length = match random.weighted(&[5, 30, 45, 18, 2]) {
        0 => 0,
        1 => random.between(1, 20),
        2 => random.between(20, 200),
        3 => random.between(200, 2000),
        _ => *random.pick(&[65_535, 65_534, 30_000]),
    };
    let odd = random.chance(25);
    let letters: &[u8] =
        if odd { b"ab \"\\\n\t(){}'`\r\0\x7f" } else { b"abcdefguseState()[]{}=>.,; 0123456789" };
    let mut source: Vec<u8> = (0..length).map(|_| *random.pick(letters)).collect();
    if random.chance(1) {
        // Too long.
        source.resize(65_536, b'x');
    }
    source
}

/// An item whose innermost form has `deep` brackets open around it, itself
/// included.
fn chain_of(random: &mut Random, deep: usize) -> String {
    let hook = ["useA", "useState", "foo"][random.below(3)];
    let mut out = String::from("(expr 1 1");
    let mut ends = String::new();
    for _ in 0..deep.saturating_sub(4) {
        let (start, end) = *random.pick(&[
            (" (array 0 0", ")"),
            (" (op 1 1", " (lit 1 1))"),
            (" (arrow 0 0", ")"),
            (" (arrow 1 1 (id 0 0 a 2)", ")"),
            (" (call 1 1 (id 0 0 useA 1)", ")"),
            (" (member 0 0", " (prop 0 0 useB))"),
            (" (jsx 0 0 (id 0 0 Foo 1)", ")"),
            (" (call 0 0", " (lit 1 1))"),
        ]);
        out.push_str(start);
        ends.insert_str(0, end);
    }
    out.push_str(&format!(" (fn 0 0 - (block 1 1 2 (expr 1 1 (call 1 1 (id 1 1 {hook} 1)))))"));
    out + &ends + ")\n"
}

fn notes(random: &mut Random, spans: &[(usize, usize)], length: usize) -> Vec<Note> {
    let count = match random.weighted(&[120, 72, 6, 3]) {
        0 => 0,
        1 => random.between(1, 5),
        2 => random.between(6, 60),
        _ => *random.pick(&[511, 512, 513, 513]),
    };
    let texts: &[&[u8]] = &[
        b"@refresh reset",
        b"* @refresh reset ",
        b"@refresh @refresh reset",
        b"@refresh rese",
        b"@refresh  reset",
        b"@Refresh reset",
        b"refresh reset",
        b"",
        b"a \"quoted\" \\ note\nof two lines",
    ];
    let asks = *random.pick(&[100, 50, 10, 2]);
    let mut notes = Vec::new();
    if count > 0 && spans.len() <= 600 && random.chance(55) {
        if let Some((side, position)) = decisive(random, spans, length) {
            // Often behind another note there.
            if random.chance(20) {
                notes.push(Note { side, position, text: b"other".to_vec() });
            }
            let text = texts[random.below(3)].to_vec();
            notes.push(Note { side, position, text });
            return notes;
        }
    }
    for _ in 0..count {
        let text = if random.chance(asks) { texts[random.below(3)] } else { *random.pick(texts) };
        let place = if spans.is_empty() || random.chance(15) {
            random.between(1, length + 1)
        } else {
            let (lo, hi) = if random.chance(8) { spans[0] } else { *random.pick(spans) };
            match random.below(4) {
                0 => lo,
                1 => hi,
                2 => hi - 1,
                _ => (hi + 1).min(length + 1),
            }
        };
        notes.push(Note {
            side: random.below(2) as u64,
            position: (place as u64).max(1),
            text: text.to_vec(),
        });
    }
    if random.chance(3) {
        // One that is refused.
        let past = length as u64 + 2;
        let wrong = [(0, 0), (1, 0), (0, past), (1, past), (2, 1), (2, 1), (0, 1 << 40)];
        let (side, position) = *random.pick(&wrong);
        notes.push(Note { side, position, text: Vec::new() });
    }
    if random.chance(2) {
        // One that fills the store, or one byte more.
        let held: usize = notes.iter().map(|note| note.text.len()).sum();
        let text = vec![b'x'; (16_384 + random.below(2)).saturating_sub(held)];
        notes.push(Note { side: 0, position: 1, text });
    }
    notes
}

/// A side and a position that are asked for by one way of asking alone, or that
/// are nearly asked for and by none.
fn decisive(random: &mut Random, spans: &[(usize, usize)], length: usize) -> Option<(u64, u64)> {
    let empty: Vec<(usize, usize)> = spans.iter().copied().filter(|s| s.0 == s.1).collect();
    let way = random.below(9);
    for _ in 0..12 {
        let from = match way {
            6 if !empty.is_empty() => &empty[..],
            // The module's, if it has one.
            7 | 8 => &spans[..spans.len().min(1)],
            _ => spans,
        };
        if from.is_empty() {
            return None;
        }
        let (lo, hi) = *random.pick(from);
        let (side, place) = match way {
            0 | 6 => (0, hi - 1),
            1 => (0, lo),
            2 => (1, lo),
            3 => (1, hi),
            4 => (0, hi),
            5 => (1, hi - 1),
            _ => *random.pick(&[(0, hi - 1), (0, lo), (1, lo)]),
        };
        let at_lo = spans.iter().any(|s| s.0 == place);
        let at_hi = spans.iter().any(|s| s.1 == place);
        let before_hi = spans.iter().any(|s| s.1 == place + 1);
        let not_empty = spans.iter().any(|s| s.0 < s.1 && s.1 == place + 1);
        let alone = match way {
            0 => !at_lo,
            1 => !before_hi,
            2 => !at_hi,
            3 => !at_lo,
            4 => !at_lo && !before_hi,
            5 => !at_lo && !at_hi,
            6 => !at_lo && !not_empty,
            _ => spans[1..].iter().all(|s| s.0 != place && (side == 1 || s.1 != place + 1)),
        };
        if alone && (1..=length + 1).contains(&place) {
            return Some((side, place as u64));
        }
    }
    None
}

fn options(random: &mut Random, nodes: usize, spoilt: bool) -> Options {
    let mut options = Options::default();
    if random.chance(8) {
        options.dev = false;
    }
    if random.chance(4) {
        options.given = false;
    }
    if random.chance(25) {
        let names = ["R", "$reg", "_c", "useReg", "Foo", "createElement"];
        options.reg = random.pick(&names).to_string();
    }
    if random.chance(25) {
        let names =
            ["S", "useSig", "useSig", "useState", "useReducer", "_s", "useA", "use", "Foo", "jsx"];
        options.sig = random.pick(&names).to_string();
    }
    if random.chance(2) {
        let length = *random.pick(&[63, 64, 65]);
        let name = long_name(random, length);
        if random.chance(50) {
            options.reg = name;
        } else {
            options.sig = name;
        }
    }
    if random.chance(4) {
        let wrong = random.pick(&["", "1a", "a-b", "a b", "é"]).to_string();
        match random.below(3) {
            0 => options.reg = wrong,
            1 => options.sig = wrong,
            _ => options.full = false,
        }
        options.dev = random.chance(70);
        options.given = random.chance(70);
    }
    if random.chance(20) {
        options.nodes = random.between(nodes.max(16), 16 + nodes * 3).min(8192);
    } else if random.chance(2) {
        options.nodes = random.between(15, nodes.max(16));
    } else if random.chance(1) {
        options.nodes = *random.pick(&[15, 15, 0, 8193]);
    }
    if nodes <= 15 && random.chance(10) {
        options.nodes = 15;
    }
    if spoilt && random.chance(15) {
        options.nodes = random.between(16, nodes.max(16));
    }
    options
}

/// Puts an item that is nearly lawful among the others, and answers where it
/// starts.
fn nearly(random: &mut Random, form: &mut Vec<u8>, length: usize) -> usize {
    let long = long_name(random, 65);
    let past = length + 2;
    let narrow = [
        "(expr 0 0 (jsx 0 0 (id 0 0 a 1) (lit 0 0) (attr 0 0 (lit 0 0))))".to_string(),
        "(expr 0 0 (op 0 0 (lit 0 0) (lit 0 0) (lit 0 0) (lit 0 0)))".into(),
        "(var 0 0 let)".into(),
        "(expr 0 0 (arrow 0 0 (pat 0 0)))".into(),
        "(expr 0 0 (id 0 0 9a 1))".into(),
        format!("(expr 0 0 (id 0 0 {long} 1))"),
        "(expr 0 0 (id 0 0 a 65536))".into(),
        "(expr 0 0 (id 0 0 a 01))".into(),
        "(expr 0 1 (lit 0 0))".into(),
        if length > 0 { "(expr 2 1 (lit 0 0))".into() } else { "(expr 1 0 (lit 0 0))".into() },
        "(expr 0 0 (id 0 0 - 1))".into(),
        "(expr 0 0 (id 0 0 a-b 1))".into(),
    ];
    let others = [
        format!("(expr 1 {past} (lit 0 0))"),
        format!("(expr {past} {past} (lit 0 0))"),
        "(expr 0 0)".into(),
        "(return 0 0 (lit 0 0) (lit 0 0))".into(),
        "(if 0 0 (lit 0 0))".into(),
        "(if 0 0 (lit 0 0) (return 0 0) (return 0 0) (return 0 0))".into(),
        "(func 0 0 - (block 0 0 0))".into(),
        "(func 0 0 (id 0 0 f 1))".into(),
        "(fn 0 0 - (block 0 0 0))".into(),
        "(deffn 0 0 (block 0 0 0))".into(),
        "(deffn 0 0 - (lit 0 0) (block 0 0 0))".into(),
        "(deffn 0 0 - (block 0 0 0) (block 0 0 0))".into(),
        "(import 0 0 (pat 0 0))".into(),
        "(export 0 0 (return 0 0))".into(),
        "(export 0 0)".into(),
        "(defexpr 0 0 (block 0 0 0))".into(),
        "(block 0 0)".into(),
        "(block 0 0 65536)".into(),
        "(block 0 0 0 (import 0 0))".into(),
        "(var 0 0 (decl 0 0 (id 0 0 a 1)))".into(),
        "(var 0 0 foo (decl 0 0 (id 0 0 a 1)))".into(),
        "(var 0 0 const (decl 0 0))".into(),
        "(var 0 0 const (decl 0 0 (lit 0 0)))".into(),
        "(var 0 0 const (decl 0 0 (id 0 0 a 1) (pat 0 0)))".into(),
        "(decl 0 0 (id 0 0 a 1))".into(),
        "(module 0 0)".into(),
        "(expr 0 0 (kwimport 0 0))".into(),
        "(expr 0 0 (call 0 0))".into(),
        "(expr 0 0 (call 0 0 (lit 0 0) (kwimport 0 0)))".into(),
        "(expr 0 0 (member 0 0 (lit 0 0) (id 0 0 a 1)))".into(),
        "(expr 0 0 (member 0 0 (lit 0 0)))".into(),
        "(expr 0 0 (assign 0 0 (array 0 0) (lit 0 0)))".into(),
        "(expr 0 0 (op 0 0))".into(),
        "(expr 0 0 (tagged 0 0))".into(),
        "(expr 0 0 (jsx 0 0 (lit 0 0)))".into(),
        "(expr 0 0 (jsx 0 0 (member 0 0 (call 0 0 (lit 0 0)) (prop 0 0 a))))".into(),
        "(expr 0 0 (jsx 0 0 (attr 0 0 (lit 0 0))))".into(),
        "(expr 0 0 (arrow 0 0))".into(),
        "(expr 0 0 (arrow 0 0 (block 0 0 0) (lit 0 0)))".into(),
        "(expr 0 0 (arrow 0 0 (lit 0 0) (lit 0 0)))".into(),
        "(expr 0 0 (arrow 0 0 (dflt 0 0 (id 0 0 a 1) (lit 0 0))))".into(),
        "(expr 0 0 (hand 0 0 _s 0))".into(),
        "(expr 0 0 (str 0 0 \"a\"))".into(),
        "(expr 0 0 (bool 0 0 true))".into(),
        "(expr 0 0 (id 0 0 a))".into(),
        "(expr 0 0 (id 0 0 a 1 1))".into(),
        "(expr 00 0 (lit 0 0))".into(),
        "(expr 0 0 (lit 0 0 -))".into(),
        "(expr 0 0 -)".into(),
        "(expr 0 0 (lit 0 0)".into(),
        "(expr 0 0 (lit 0 0)))".into(),
        "".into(),
    ];
    let line = if random.chance(80) { random.pick(&narrow) } else { random.pick(&others) };
    let mut starts: Vec<usize> = vec![form.len()];
    starts.extend((1..form.len()).filter(|&at| form[at - 1] == b'\n'));
    let at = *random.pick(&starts);
    form.splice(at..at, [line.as_bytes(), b"\n"].concat());
    at
}

/// Behind the form that starts there.
fn form_end(form: &[u8], at: usize) -> usize {
    let mut open = 0;
    for (i, byte) in form.iter().enumerate().skip(at) {
        match byte {
            b'(' => open += 1,
            b')' => open -= 1,
            _ => {}
        }
        if open == 0 {
            return i + 1;
        }
    }
    form.len()
}

/// Spoils a form somewhere, and answers where it starts to differ. It may happen
/// to stay lawful.
fn spoil(random: &mut Random, form: &mut Vec<u8>) -> usize {
    let mut starts = Vec::new();
    let is_mark = |b: u8| matches!(b, b'(' | b')' | b' ' | b'\n');
    for at in 0..form.len() {
        if at == 0 || is_mark(form[at]) || is_mark(form[at - 1]) {
            starts.push(at);
        }
    }
    let i = random.below(starts.len());
    let at = starts[i];
    let end = *starts.get(i + 1).unwrap_or(&form.len());
    let token = |random: &mut Random| -> Vec<u8> {
        let long = long_name(random, 65);
        let tokens: &[&str] = &[
            "(",
            ")",
            " ",
            "\n",
            "-",
            "-",
            "-",
            "-",
            "0",
            "1",
            "00",
            "7",
            "65535",
            "65536",
            "99999999999999999999",
            "id",
            "block",
            "expr",
            "lit",
            "call",
            "member",
            "prop",
            "decl",
            "attr",
            "kwimport",
            "hand",
            "str",
            "bool",
            "module",
            "import",
            "export",
            "func",
            "fn",
            "deffn",
            "defexpr",
            "arrow",
            "pat",
            "dflt",
            "if",
            "return",
            "var",
            "let",
            "const",
            "jsx",
            "op",
            "tagged",
            "array",
            "assign",
            "é",
            "\"",
            "a-b",
            "--",
            "1a",
            "+1",
            "\t",
            "\r",
            &long,
            "a",
            "Foo",
        ];
        random.pick(tokens).as_bytes().to_vec()
    };
    let way = random.below(14);
    let inside: Vec<usize> = starts
        .iter()
        .copied()
        .filter(|&s| s > 0 && form[s] == b'(' && form[s - 1] == b' ')
        .collect();
    if way >= 9 && !inside.is_empty() {
        // A whole form inside another, with its blank: put behind the next,
        // doubled, left out, put in place of another or before it.
        let (at, there) = (*random.pick(&inside), *random.pick(&inside));
        let part = form[at - 1..form_end(form, at)].to_vec();
        let siblings: Vec<usize> = inside
            .iter()
            .copied()
            .filter(|&s| form[form_end(form, s)..].starts_with(b" ("))
            .take(200)
            .collect();
        if random.chance(40) && !siblings.is_empty() {
            let first = *random.pick(&siblings);
            let (middle, last) = (form_end(form, first), form_end(form, form_end(form, first) + 1));
            form[first - 1..last].rotate_left(middle - (first - 1));
            return first - 1;
        }
        match random.below(4) {
            0 => drop(form.splice(at - 1..at - 1, part)),
            1 => drop(form.drain(at - 1..at - 1 + part.len())),
            2 => drop(form.splice(there - 1..form_end(form, there), part)),
            _ => drop(form.splice(there - 1..there - 1, part)),
        }
        return at.min(there) - 1;
    }
    let numbers: Vec<usize> =
        starts.iter().copied().filter(|&s| form[s].is_ascii_digit()).collect();
    if way == 8 && !numbers.is_empty() {
        // Another number, often one that a span can't have there.
        let at = *random.pick(&numbers);
        let end = at + form[at..].iter().position(|&b| is_mark(b)).unwrap_or(0);
        let old: usize = String::from_utf8_lossy(&form[at..end]).parse().unwrap_or(0);
        let new = match random.below(5) {
            0 => old + 1,
            1 => old.saturating_sub(1),
            2 => 0,
            3 => 65_536,
            _ => random.below(2 * old + 2),
        };
        form.splice(at..end, new.to_string().into_bytes());
        return at;
    }
    match way % 8 {
        0 => drop(form.drain(at..end)),
        1 => {
            let copy = form[at..end].to_vec();
            form.splice(at..at, copy);
        }
        2 | 3 => {
            let new = token(random);
            form.splice(at..end, new);
        }
        4 => {
            let new = token(random);
            form.splice(at..at, new);
        }
        5 => form.truncate(at),
        6 => {
            // Another token of the form in its place.
            let j = random.below(starts.len());
            let other = form[starts[j]..*starts.get(j + 1).unwrap_or(&form.len())].to_vec();
            form.splice(at..end, other);
        }
        _ => {
            // One byte changed; its token is spoilt from its start.
            let place = random.between(at, end - 1);
            form[place] = random.below(256) as u8;
        }
    }
    // The run before may have grown.
    let mut at = at.min(form.len());
    while at > 0 && !is_mark(form[at - 1]) {
        at -= 1;
    }
    at
}
