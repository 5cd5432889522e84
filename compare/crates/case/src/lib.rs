//! One case: a form, its source, notes and options, with the files they are kept
//! in; and what the parties of a comparison have in common.

use std::{collections::HashMap, fs, path::Path};

#[derive(Clone, Debug, PartialEq, Eq)]
pub struct Note {
    /// 0 leading, 1 trailing; anything else is to be refused.
    pub side: u64,
    pub position: u64,
    pub text: Vec<u8>,
}

#[derive(Clone, Debug, PartialEq, Eq)]
pub struct Options {
    pub dev: bool,
    /// Whether options are given at all; the next three are then theirs.
    pub given: bool,
    pub reg: String,
    pub sig: String,
    pub full: bool,
    /// The number of nodes that the tables come for.
    pub nodes: usize,
}

impl Default for Options {
    fn default() -> Self {
        Options {
            dev: true,
            given: true,
            reg: "$RefreshReg$".into(),
            sig: "$RefreshSig$".into(),
            full: true,
            nodes: 8192,
        }
    }
}

#[derive(Clone, Debug, Default, PartialEq, Eq)]
pub struct Case {
    pub form: Vec<u8>,
    pub source: Vec<u8>,
    pub notes: Vec<Note>,
    pub options: Options,
}

/// One who instruments modules: loads the form and the source, takes the notes
/// in order, runs and prints. `Err` is the number and the place of the first
/// refusal. Handles are numbered as made.
pub trait Port {
    fn name(&self) -> String;

    fn instrument(
        &mut self,
        form: &[u8],
        source: &[u8],
        notes: &[Note],
        options: &Options,
    ) -> Result<String, (u32, u64)>;

    /// Loads only, into tables for so many nodes, and answers the nodes loaded.
    /// Unless a port has something better: by a run that isn't enabled.
    fn load(&mut self, form: &[u8], source: &[u8], nodes: usize) -> Result<u64, (u32, u64)> {
        let options = Options { dev: false, given: false, nodes, ..Options::default() };
        let printed = self.instrument(form, source, &[], &options)?;
        Ok(printed.bytes().filter(|&b| b == b'(').count() as u64)
    }
}

// Files

impl Case {
    /// From `FORM SOURCE [NOTES] [OPTIONS]`, `-` or nothing for no such file; or
    /// from `in.form` and `in.src`, with `in.notes` and `in.options` beside them
    /// if they exist.
    pub fn from_arguments(arguments: &[String]) -> Result<Case, String> {
        let given = |i: usize, default: &str| match arguments.get(i).map(String::as_str) {
            Some("-") => None,
            Some(path) => Some(path.to_string()),
            None if arguments.is_empty() => {
                (i < 2 || Path::new(default).exists()).then(|| default.to_string())
            }
            None => None,
        };
        if arguments.len() == 1 || arguments.len() > 4 {
            return Err("arguments: FORM SOURCE [NOTES] [OPTIONS]".into());
        }
        let read = |path: String| fs::read(&path).map_err(|e| format!("{path}: {e}"));
        let mut case = Case {
            form: read(given(0, "in.form").ok_or("no form")?)?,
            source: read(given(1, "in.src").ok_or("no source")?)?,
            ..Case::default()
        };
        if let Some(path) = given(2, "in.notes") {
            case.notes = read_notes(&read(path)?)?;
        }
        if let Some(path) = given(3, "in.options") {
            case.options = read_options(&read(path)?)?;
        }
        Ok(case)
    }

    /// Writes `in.form`, `in.src`, `in.notes` and `in.options` into a folder.
    pub fn write(&self, folder: &Path) -> std::io::Result<()> {
        fs::create_dir_all(folder)?;
        fs::write(folder.join("in.form"), &self.form)?;
        fs::write(folder.join("in.src"), &self.source)?;
        fs::write(folder.join("in.notes"), write_notes(&self.notes))?;
        fs::write(folder.join("in.options"), write_options(&self.options))
    }
}

/// Lines `side position "text"`, the text with `\"`, `\\` and `\n`.
pub fn read_notes(bytes: &[u8]) -> Result<Vec<Note>, String> {
    let mut notes = Vec::new();
    for (i, line) in bytes.split(|&b| b == b'\n').enumerate() {
        if line.is_empty() {
            continue;
        }
        let wrong = || format!("notes, line {}: side position \"text\" expected", i + 1);
        let mut parts = line.splitn(3, |&b| b == b' ');
        let side = number(parts.next().unwrap_or_default()).ok_or_else(wrong)?;
        let position = number(parts.next().unwrap_or_default()).ok_or_else(wrong)?;
        let text = unquote(parts.next().unwrap_or_default()).ok_or_else(wrong)?;
        notes.push(Note { side, position, text });
    }
    Ok(notes)
}

pub fn write_notes(notes: &[Note]) -> Vec<u8> {
    let mut out = Vec::new();
    for note in notes {
        out.extend_from_slice(format!("{} {} ", note.side, note.position).as_bytes());
        quote(&note.text, &mut out);
        out.push(b'\n');
    }
    out
}

/// Lines `dev 0|1`, `given 0|1`, `reg NAME`, `sig NAME`, `full 0|1`, `nodes N`;
/// missing ones have their default.
pub fn read_options(bytes: &[u8]) -> Result<Options, String> {
    let mut options = Options::default();
    let text = std::str::from_utf8(bytes).map_err(|e| format!("options: {e}"))?;
    for (i, line) in text.split('\n').enumerate() {
        if line.is_empty() {
            continue;
        }
        let (word, value) = line.split_once(' ').unwrap_or((line, ""));
        let flag = || match value {
            "0" => Ok(false),
            "1" => Ok(true),
            _ => Err(format!("options, line {}: 0 or 1 expected", i + 1)),
        };
        match word {
            "dev" => options.dev = flag()?,
            "given" => options.given = flag()?,
            "full" => options.full = flag()?,
            "reg" => options.reg = value.into(),
            "sig" => options.sig = value.into(),
            "nodes" => {
                options.nodes = value
                    .parse()
                    .map_err(|_| format!("options, line {}: a number expected", i + 1))?
            }
            _ => return Err(format!("options, line {}: unknown word {word}", i + 1)),
        }
    }
    Ok(options)
}

pub fn write_options(options: &Options) -> Vec<u8> {
    let flag = |b: bool| if b { 1 } else { 0 };
    let mut text = format!(
        "dev {}\ngiven {}\nreg {}\nsig {}\nfull {}\n",
        flag(options.dev),
        flag(options.given),
        options.reg,
        options.sig,
        flag(options.full)
    );
    if options.nodes != Options::default().nodes {
        text.push_str(&format!("nodes {}\n", options.nodes));
    }
    text.into_bytes()
}

fn number(digits: &[u8]) -> Option<u64> {
    std::str::from_utf8(digits).ok()?.parse().ok()
}

/// Text in double quotes, with quote, backslash and line feed escaped.
pub fn quote(text: &[u8], out: &mut Vec<u8>) {
    out.push(b'"');
    for &byte in text {
        match byte {
            b'"' => out.extend_from_slice(b"\\\""),
            b'\\' => out.extend_from_slice(b"\\\\"),
            b'\n' => out.extend_from_slice(b"\\n"),
            _ => out.push(byte),
        }
    }
    out.push(b'"');
}

fn unquote(quoted: &[u8]) -> Option<Vec<u8>> {
    let inner = quoted.strip_prefix(b"\"")?.strip_suffix(b"\"")?;
    let mut out = Vec::new();
    let mut bytes = inner.iter();
    while let Some(&byte) = bytes.next() {
        match byte {
            b'"' => return None,
            b'\\' => match bytes.next()? {
                b'n' => out.push(b'\n'),
                b'"' => out.push(b'"'),
                b'\\' => out.push(b'\\'),
                _ => return None,
            },
            _ => out.push(byte),
        }
    }
    Some(out)
}

// What is read off a printed module

enum Piece<'a> {
    /// A bracket, a blank or a line feed.
    Mark(u8),
    Word(&'a str),
    /// Text in quotes, as written, quotes included.
    Text(&'a str),
}

fn pieces(printed: &str) -> Vec<Piece<'_>> {
    let bytes = printed.as_bytes();
    let mut out = Vec::new();
    let mut at = 0;
    while at < bytes.len() {
        let start = at;
        match bytes[at] {
            mark @ (b'(' | b')' | b' ' | b'\n') => {
                at += 1;
                out.push(Piece::Mark(mark));
            }
            b'"' => {
                at += 1;
                while at < bytes.len() && bytes[at] != b'"' {
                    at += if bytes[at] == b'\\' { 2 } else { 1 };
                }
                at = (at + 1).min(bytes.len());
                out.push(Piece::Text(&printed[start..at]));
            }
            _ => {
                while at < bytes.len() && !matches!(bytes[at], b'(' | b')' | b' ' | b'\n' | b'"') {
                    at += 1;
                }
                out.push(Piece::Word(&printed[start..at]));
            }
        }
    }
    out
}

/// Numbers the handles of a printed module by first appearance.
pub fn renumber(printed: &str) -> String {
    let mut numbers: HashMap<(String, String), usize> = HashMap::new();
    let mut out = String::with_capacity(printed.len());
    // The words since the last bracket.
    let mut words: Vec<&str> = Vec::new();
    for piece in pieces(printed) {
        match piece {
            Piece::Mark(mark) => {
                if mark == b'(' || mark == b')' {
                    words.clear();
                }
                out.push(mark as char);
            }
            Piece::Text(text) => out.push_str(text),
            Piece::Word(word) => {
                words.push(word);
                if words.len() == 5 && words[0] == "hand" {
                    let next = numbers.len();
                    let key = (words[3].to_string(), word.to_string());
                    out.push_str(&numbers.entry(key).or_insert(next).to_string());
                } else {
                    out.push_str(word);
                }
            }
        }
    }
    out
}

/// The nodes and the text size of a printed module.
pub fn sizes(printed: &str) -> (usize, usize) {
    let (mut nodes, mut size) = (0, 0);
    let mut words: Vec<&str> = Vec::new();
    for piece in pieces(printed) {
        match piece {
            Piece::Mark(mark) => {
                if mark == b'(' {
                    nodes += 1;
                }
                if mark == b'(' || mark == b')' {
                    words.clear();
                }
            }
            Piece::Text(text) => size += unquote(text.as_bytes()).map_or(0, |t| t.len()),
            Piece::Word(word) => {
                words.push(word);
                if words.len() == 4 && (words[0] == "id" || words[0] == "prop") {
                    size += word.len();
                }
            }
        }
    }
    (nodes, size)
}

#[cfg(test)]
mod tests {
    use super::*;

    #[test]
    fn notes_and_options_round_trip() {
        let notes = vec![
            Note { side: 0, position: 3, text: b"a \"b\"\\\n".to_vec() },
            Note { side: 7, position: 0, text: Vec::new() },
        ];
        assert_eq!(read_notes(&write_notes(&notes)).unwrap(), notes);
        let options = Options { dev: false, reg: "R".into(), nodes: 17, ..Options::default() };
        assert_eq!(read_options(&write_options(&options)).unwrap(), options);
        assert_eq!(read_options(b"").unwrap(), Options::default());
    }

    #[test]
    fn handles_are_renumbered_outside_texts_only() {
        let text = "(call 0 0 (hand 0 0 _s 7) (str 0 0 \"(hand 0 0 _s 7)\") (hand 0 0 _c 3))\n(hand 0 0 _s 7)\n";
        let want = "(call 0 0 (hand 0 0 _s 0) (str 0 0 \"(hand 0 0 _s 7)\") (hand 0 0 _c 1))\n(hand 0 0 _s 0)\n";
        assert_eq!(renumber(text), want);
        assert_eq!(sizes(text), (5, 15));
        assert_eq!(sizes("(module 1 2)\n(expr 0 0 (id 1 2 abc 12))\n"), (3, 3));
    }
}
