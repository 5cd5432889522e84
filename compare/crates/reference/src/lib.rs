//! The instrumentation written plainly from its rules: reader, pass, printer and
//! the refusals, for comparing others with.

pub mod print;
pub mod read;
pub mod rules;
pub mod tree;
pub mod wrong;

use case::{Note, Options, Port};

pub use rules::Faults;
use tree::Node;
pub use wrong::{Rules, Wrong};

/// The number and the place of a refused call.
#[derive(Clone, Copy, Debug, PartialEq, Eq)]
pub struct Refusal {
    pub number: u32,
    pub place: u64,
}

/// A module from its form.
pub fn load(form: &[u8], source: &[u8], nodes: usize) -> Result<Node, Refusal> {
    load_by(Rules::default(), form, source, nodes)
}

pub fn load_by(rules: Rules, form: &[u8], source: &[u8], nodes: usize) -> Result<Node, Refusal> {
    let too_large = Err(Refusal { number: 4, place: 0 });
    let least = if rules.wrong(Wrong::Nodes15) { 15 } else { 16 };
    let longest = if rules.wrong(Wrong::Source65536) { 65_536 } else { 65_535 };
    if !(least..=8192).contains(&nodes) || source.len() > longest {
        return too_large;
    }
    if rules.wrong(Wrong::SizesFirst) && form.iter().filter(|&&b| b == b'(').count() > nodes {
        return too_large;
    }
    let module = read::read_by(rules, form, source.len())?;
    let most_nodes = nodes - usize::from(rules.wrong(Wrong::NodesBelow));
    let most = 6 * nodes - usize::from(rules.wrong(Wrong::TextBelow));
    if module.nodes() > most_nodes || module.text_size() > most {
        return too_large;
    }
    Ok(module)
}

/// Whether the notes are taken, one after another.
pub fn take_notes(notes: &[Note], source: &[u8]) -> Result<(), Refusal> {
    take_notes_by(Rules::default(), notes, source)
}

pub fn take_notes_by(rules: Rules, notes: &[Note], source: &[u8]) -> Result<(), Refusal> {
    let least = if rules.wrong(Wrong::NoteZero) { 0 } else { 1 };
    let last = source.len() as u64 + if rules.wrong(Wrong::NotePast) { 2 } else { 1 };
    let most_side = if rules.wrong(Wrong::NoteSide) { 2 } else { 1 };
    let most_notes = if rules.wrong(Wrong::Notes513) { 513 } else { 512 };
    let most_bytes = if rules.wrong(Wrong::NoteBytes) { 16_385 } else { 16_384 };
    let mut bytes = 0;
    for (held, note) in notes.iter().enumerate() {
        if note.side > most_side || !(least..=last).contains(&note.position) {
            let place = if rules.wrong(Wrong::NotePlace) { held as u64 } else { note.position };
            return Err(Refusal { number: 6, place });
        }
        bytes += note.text.len();
        if held + 1 > most_notes || bytes > most_bytes {
            return Err(Refusal { number: 7, place: 0 });
        }
    }
    Ok(())
}

/// Run, its options looked at first.
pub fn run(
    module: &mut Node,
    source: &[u8],
    notes: &[Note],
    options: &Options,
    rules: Rules,
) -> Result<(), Refusal> {
    let lawful = |name: &str| read::is_name(name.as_bytes());
    let full = options.full || rules.wrong(Wrong::FullOff);
    let looked_at = match rules.wrong {
        Wrong::OptionsDev => options.given && options.dev,
        Wrong::OptionsNotGiven => true,
        _ => options.given,
    };
    if looked_at && !(lawful(&options.reg) && lawful(&options.sig) && full) {
        return Err(Refusal { number: 8, place: 0 });
    }
    rules::run(module, source, notes, options, rules)
}

/// Load, note, run and print.
pub fn instrument(
    form: &[u8],
    source: &[u8],
    notes: &[Note],
    options: &Options,
) -> Result<Vec<u8>, Refusal> {
    instrument_by(Rules::default(), form, source, notes, options)
}

pub fn instrument_by(
    rules: Rules,
    form: &[u8],
    source: &[u8],
    notes: &[Note],
    options: &Options,
) -> Result<Vec<u8>, Refusal> {
    let mut module = load_by(rules, form, source, options.nodes)?;
    take_notes_by(rules, notes, source)?;
    run(&mut module, source, notes, options, rules)?;
    Ok(print::print(&module))
}

pub struct Reference;

impl Port for Reference {
    fn name(&self) -> String {
        "reference".into()
    }

    fn instrument(
        &mut self,
        form: &[u8],
        source: &[u8],
        notes: &[Note],
        options: &Options,
    ) -> Result<String, (u32, u64)> {
        match instrument(form, source, notes, options) {
            Ok(printed) => Ok(String::from_utf8_lossy(&printed).into_owned()),
            Err(refusal) => Err((refusal.number, refusal.place)),
        }
    }
}

#[cfg(test)]
mod tests;
