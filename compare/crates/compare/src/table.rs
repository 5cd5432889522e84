//! Tables of cases with their answers, as the program `vectors` reads and writes
//! them.

use case::{quote, read_notes, sizes, Case, Note, Options};

pub struct Entry {
    pub name: String,
    pub case: Case,
    pub room: usize,
    /// Every shorter beginning of the form is to be loaded instead.
    pub cuts: bool,
}

/// The cases of a table.
pub fn read(table: &[u8]) -> Result<Vec<Entry>, String> {
    let mut entries: Vec<Entry> = Vec::new();
    let mut lines = table.split_inclusive(|&b| b == b'\n');
    while let Some(line) = lines.next() {
        let line = line.strip_suffix(b"\n").unwrap_or(line);
        let blank = line.iter().position(|&b| b == b' ').unwrap_or(line.len());
        let (word, rest) = (&line[..blank], line.get(blank + 1..).unwrap_or_default());
        let text = || String::from_utf8_lossy(rest).into_owned();
        let number = || text().parse::<usize>().unwrap_or(0);
        if word == b"case" {
            let options = Options { nodes: 64, ..Options::default() };
            let case = Case { options, ..Case::default() };
            entries.push(Entry { name: text(), case, room: 65_536, cuts: false });
            continue;
        }
        let entry = entries.last_mut().ok_or("a table begins with a case")?;
        let case = &mut entry.case;
        match word {
            b"nodes" => case.options.nodes = number(),
            b"source" => case.source = unescape(rest),
            b"fill" => case.source = vec![b'x'; number()],
            b"note" => case.notes.extend(read_notes(rest)?),
            b"room" => entry.room = number(),
            b"cuts" => entry.cuts = true,
            b"options" => {
                let text = text();
                let words: Vec<&str> = text.split(' ').collect();
                let [dev, given, reg, sig, full] = words[..] else {
                    return Err(format!("{}: five options expected", entry.name));
                };
                let name = |word: &str| if word == "-" { String::new() } else { word.to_string() };
                let nodes = case.options.nodes;
                let (dev, given, full) = (dev == "1", given == "1", full == "1");
                case.options = Options { dev, given, reg: name(reg), sig: name(sig), full, nodes };
            }
            b"text" => {
                let quoted = [b"0 1 ", rest].concat();
                case.form = read_notes(&quoted)?.remove(0).text;
            }
            b"form" => {
                for line in lines.by_ref() {
                    if line == b"end\n" || line == b"end" {
                        break;
                    }
                    case.form.extend_from_slice(line);
                }
            }
            b"end" => {}
            _ => {
                return Err(format!(
                    "{}: unknown line {}",
                    entry.name,
                    String::from_utf8_lossy(line)
                ))
            }
        }
    }
    Ok(entries)
}

fn unescape(text: &[u8]) -> Vec<u8> {
    let mut out = Vec::new();
    let mut bytes = text.iter();
    while let Some(&byte) = bytes.next() {
        match (byte, byte == b'\\') {
            (_, true) => match bytes.next() {
                Some(b'n') => out.push(b'\n'),
                Some(&other) => out.push(other),
                None => {}
            },
            _ => out.push(byte),
        }
    }
    out
}

/// One case of a table.
pub fn write(entry: &Entry, out: &mut Vec<u8>) {
    let Case { form, source, notes, options } = &entry.case;
    out.extend_from_slice(format!("case {}\n", entry.name).as_bytes());
    if options.nodes != 64 {
        out.extend_from_slice(format!("nodes {}\n", options.nodes).as_bytes());
    }
    if !source.is_empty() {
        out.extend_from_slice(b"source ");
        for &byte in source {
            match byte {
                b'\n' => out.extend_from_slice(b"\\n"),
                b'\\' => out.extend_from_slice(b"\\\\"),
                _ => out.push(byte),
            }
        }
        out.push(b'\n');
    }
    for Note { side, position, text } in notes {
        out.extend_from_slice(format!("note {side} {position} ").as_bytes());
        quote(text, out);
        out.push(b'\n');
    }
    let default = Options { nodes: options.nodes, ..Options::default() };
    if *options != default {
        let flag = |b: bool| if b { 1 } else { 0 };
        let Options { dev, given, reg, sig, full, .. } = options;
        let (dev, given, full) = (flag(*dev), flag(*given), flag(*full));
        out.extend_from_slice(format!("options {dev} {given} {reg} {sig} {full}\n").as_bytes());
    }
    out.extend_from_slice(b"form\n");
    out.extend_from_slice(form);
    out.extend_from_slice(b"end\n");
}

/// What is written for a case that is refused nothing: `printed` is its module
/// after the run.
pub fn answer(entry: &Entry, printed: &str, out: &mut Vec<u8>) {
    let loaded = entry.case.form.iter().filter(|&&b| b == b'(').count();
    out.extend_from_slice(format!("case {}\nload ok {loaded}\n", entry.name).as_bytes());
    for held in 1..=entry.case.notes.len() {
        out.extend_from_slice(format!("note ok {held}\n").as_bytes());
    }
    let added = sizes(printed).0 - loaded;
    let bytes = printed.len();
    out.extend_from_slice(format!("run ok {added}\nprint ok {bytes}\n{printed}").as_bytes());
}

/// What the reference answers to any case.
pub fn by_reference(entry: &Entry, out: &mut Vec<u8>) {
    let Case { form, source, notes, options } = &entry.case;
    let mut line = |words: String| out.extend_from_slice(words.as_bytes());
    line(format!("case {}\n", entry.name));
    if entry.cuts {
        for cut in 0..form.len() {
            line(match reference::load(&form[..cut], source, options.nodes) {
                Ok(module) => format!("cut {cut} ok {}\n", module.nodes()),
                Err(r) => format!("cut {cut} no {} {}\n", r.number, r.place),
            });
        }
        return;
    }
    let mut module = match reference::load(form, source, options.nodes) {
        Ok(module) => module,
        Err(r) => return line(format!("load no {} {}\n", r.number, r.place)),
    };
    let loaded = module.nodes();
    line(format!("load ok {loaded}\n"));
    let mut held: Vec<Note> = Vec::new();
    for note in notes {
        held.push(note.clone());
        match reference::take_notes(&held, source) {
            Ok(()) => line(format!("note ok {}\n", held.len())),
            Err(r) => {
                held.pop();
                line(format!("note no {} {}\n", r.number, r.place));
            }
        }
    }
    match reference::run(&mut module, source, &held, options, reference::Rules::default()) {
        Ok(()) => line(format!("run ok {}\n", module.nodes() - loaded)),
        Err(r) => line(format!("run no {} {}\n", r.number, r.place)),
    }
    let printed = reference::print::print(&module);
    if printed.len() > entry.room {
        line(format!("print no 9 {}\n", printed.len()));
    } else {
        line(format!("print ok {}\n", printed.len()));
        out.extend_from_slice(&printed);
    }
}

/// Holds the answers of a table against the reference; whether they are its own.
pub fn check(table: &[u8], answers: &[u8]) -> Result<String, String> {
    let entries = read(table)?;
    let mut at = 0;
    for entry in &entries {
        let mut wanted = Vec::new();
        by_reference(entry, &mut wanted);
        if !answers[at..].starts_with(&wanted) {
            let found = &answers[at..];
            let end = found.len().min(wanted.len() + 200);
            return Err(format!(
                "{}: the rules say\n{}\nthe table\n{}",
                entry.name,
                String::from_utf8_lossy(&wanted),
                String::from_utf8_lossy(&found[..end])
            ));
        }
        at += wanted.len();
    }
    if at != answers.len() {
        return Err(format!("{} bytes of answers left over", answers.len() - at));
    }
    Ok(format!("{} cases, {} bytes of answers: all as the rules say", entries.len(), at))
}

#[cfg(test)]
mod tests {
    use super::*;

    #[test]
    fn cases_are_read_as_written() {
        let options = Options { dev: false, reg: "R".into(), nodes: 17, ..Options::default() };
        let note = Note { side: 1, position: 2, text: b"a \"b\"\\\n".to_vec() };
        let case = Case {
            form: b"(module 1 5)\n(return 0 0)\n".to_vec(),
            source: b" \\a\n".to_vec(),
            notes: vec![note],
            options,
        };
        let entry = Entry { name: "one".into(), case, room: 65_536, cuts: false };
        let mut written = Vec::new();
        write(&entry, &mut written);
        let again = read(&written).unwrap();
        assert_eq!(again.len(), 1);
        assert_eq!(again[0].case, entry.case);
        let mut answers = Vec::new();
        by_reference(&entry, &mut answers);
        assert_eq!(
            answers,
            b"case one\nload ok 2\nnote ok 1\nrun ok 0\nprint ok 26\n(module 1 5)\n(return 0 0)\n"
        );
    }
}
