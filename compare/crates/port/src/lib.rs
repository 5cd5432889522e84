//! The port, through its one exported function over byte slices.

use case::{Note, Options, Port};

extern "C" {
    fn hufalimpy_instrument(
        form: *const u8,
        form_len: usize,
        source: *const u8,
        source_len: usize,
        notes: *const u8,
        notes_len: usize,
        options: *const u8,
        options_len: usize,
        nodes: usize,
        out: *mut u8,
        out_len: usize,
    ) -> u64;

    fn hufalimpy_repeat(
        form: *const u8,
        form_len: usize,
        source: *const u8,
        source_len: usize,
        runs: usize,
        loads: usize,
        prints: usize,
        out: *mut u8,
        out_len: usize,
    ) -> u64;

    fn hufalimpy_bytes_per_node() -> u64;
}

/// Loads so many times, each time with a run if `runs`, and then prints so many
/// times, over tables that are made once. Answers the bytes printed.
pub fn repeat(form: &[u8], source: &[u8], runs: bool, loads: usize, prints: usize, out: &mut [u8]) -> usize {
    // The function asks nothing of its arguments but that the slices are slices.
    let answer = unsafe {
        hufalimpy_repeat(
            form.as_ptr(),
            form.len(),
            source.as_ptr(),
            source.len(),
            runs as usize,
            loads,
            prints,
            out.as_mut_ptr(),
            out.len(),
        )
    };
    assert!(answer < REFUSED, "the port refuses: {answer:x}");
    answer as usize
}

/// What all tables of the port take for each node, in bytes.
pub fn bytes_per_node() -> u64 {
    unsafe { hufalimpy_bytes_per_node() }
}

/// More than any module of 8,192 nodes prints.
const ROOM: usize = 393_216;
/// Refusals stand above all lengths: this, and 2^48 for each number, and the place.
const REFUSED: u64 = 1 << 63;
const NUMBER: u64 = 1 << 48;
/// The largest number that a line of notes writes.
const LAST: u64 = 999_999_999;

pub struct Hufalimpy {
    out: Vec<u8>,
}

impl Hufalimpy {
    pub fn new() -> Self {
        Hufalimpy { out: vec![b'.'; ROOM] }
    }

    fn call(&mut self, form: &[u8], source: &[u8], notes: &[u8], options: &[u8], nodes: usize) -> Result<usize, (u32, u64)> {
        // The function asks nothing of its arguments but that the slices are slices.
        let answer = unsafe {
            hufalimpy_instrument(
                form.as_ptr(),
                form.len(),
                source.as_ptr(),
                source.len(),
                notes.as_ptr(),
                notes.len(),
                options.as_ptr(),
                options.len(),
                nodes,
                self.out.as_mut_ptr(),
                self.out.len(),
            )
        };
        if answer < REFUSED {
            Ok(answer as usize)
        } else {
            let rest = answer - REFUSED;
            Err(((rest / NUMBER) as u32, rest % NUMBER))
        }
    }
}

impl Default for Hufalimpy {
    fn default() -> Self {
        Self::new()
    }
}

fn quoted(text: &[u8], to: &mut Vec<u8>) {
    to.push(b'"');
    for &b in text {
        match b {
            b'"' | b'\\' => to.extend([b'\\', b]),
            b'\n' => to.extend(*b"\\n"),
            _ => to.push(b),
        }
    }
    to.push(b'"');
}

fn note_lines(notes: &[Note]) -> Vec<u8> {
    let mut lines = Vec::new();
    for note in notes {
        lines.extend(format!("{} {} ", note.side, note.position).into_bytes());
        quoted(&note.text, &mut lines);
        lines.push(b'\n');
    }
    lines
}

fn option_lines(options: &Options) -> Vec<u8> {
    format!(
        "dev {}\ngiven {}\nreg {}\nsig {}\nfull {}\n",
        options.dev as u8, options.given as u8, options.reg, options.sig, options.full as u8
    )
    .into_bytes()
}

impl Port for Hufalimpy {
    fn name(&self) -> String {
        "hufalimpy".into()
    }

    fn instrument(&mut self, form: &[u8], source: &[u8], notes: &[Note], options: &Options) -> Result<String, (u32, u64)> {
        // A position that a line of notes cannot write is no position of any
        // source: what stands before it is asked of the port, the rest is 6.
        if let Some(at) = notes.iter().position(|note| note.position > LAST || note.side > LAST) {
            let off = Options { dev: false, given: false, ..options.clone() };
            self.call(form, source, &note_lines(&notes[..at]), &option_lines(&off), options.nodes)?;
            return Err((6, notes[at].position));
        }
        let n = self.call(form, source, &note_lines(notes), &option_lines(options), options.nodes)?;
        Ok(String::from_utf8_lossy(&self.out[..n]).into_owned())
    }
}
