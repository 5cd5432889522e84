//! What is compared in one case.

use case::{renumber, sizes, Case, Port};
use generator::Generated;
use reference::{
    rules::{is_wrapper, used_in_jsx},
    tree::{Kind, Node},
    Faults, Refusal, Rules,
};

#[derive(Default)]
pub struct Counts {
    compared: u64,
    disabled: u64,
    too_large: u64,
    wrappers: u64,
    faults: u64,
    fault: [u64; 3],
    refused: u64,
    refusal: [u64; 9],
    completed: u64,
    nodes: u64,
    most_nodes: usize,
    signed: u64,
    signatures: u64,
    registered: u64,
    listed: u64,
    reset: u64,
}

impl Counts {
    pub fn line(&self) -> String {
        format!(
            "{} compared, {} show a fault, {} wrappers, {} refused",
            self.compared, self.faults, self.wrappers, self.refused
        )
    }

    pub fn details(&self) -> String {
        let refusals: Vec<String> = [1, 2, 3, 4, 6, 7, 8]
            .iter()
            .map(|&n| format!("{} with {n}", self.refusal[n]))
            .collect();
        format!(
            "compared: {} disabled, {} too large for the tables; {} nodes loaded, at most {} in a module\n\
             instrumented: {} modules with signatures, {} signature calls, {} with hooks listed, {} with reset; {} registrations\n\
             faults shown: {} trailing note at hi, {} use inside attr, {} key of a signed argument\n\
             refused: {}; {} refused forms completed up to the wrong token",
            self.disabled,
            self.too_large,
            self.nodes,
            self.most_nodes,
            self.signed,
            self.signatures,
            self.listed,
            self.reset,
            self.registered,
            self.fault[0],
            self.fault[1],
            self.fault[2],
            refusals.join(", "),
            self.completed
        )
    }
}

pub type Printed = Result<String, Refusal>;

/// All faults of the published pass.
pub const ALL: Faults = Faults { hi: true, attr: true, key: true };

/// Whether the published pass finds a wrapped component, which the rules don't
/// have.
pub fn has_wrapper(module: &Node, options: &case::Options) -> bool {
    let used = used_in_jsx(module, Rules::with_faults(ALL));
    options.dev && options.given && module.parts.iter().any(|item| is_wrapper(item, &used))
}

pub fn check(
    generated: &Generated,
    ports: &mut [Box<dyn Port>],
    counts: &mut Counts,
) -> Result<(), String> {
    let case = &generated.case;
    let rules = by_rules(case, Rules::default());
    same(case, &rules, ports)?;
    for (case, wanted) in at_the_limit(case, &rules) {
        if by_rules(&case, Rules::default()) != wanted {
            return Err(format!("wrongly judged for tables of {} nodes", case.options.nodes));
        }
        same(&case, &wanted, ports)?;
    }
    let loaded = reference::load(&case.form, &case.source, case.options.nodes);
    if let Err(refusal) = rules {
        if refusal.number != 4 || loaded.is_err() {
            check_refusal(generated, refusal, counts)?;
            counts.refused += 1;
            counts.refusal[refusal.number as usize] += 1;
            return Ok(());
        }
    }
    let module = loaded.map_err(|refusal| format!("loaded, yet refused: {refusal:?}"))?;
    let form = text(&case.form);
    if open_brackets(&case.form).1 > 64 {
        return Err("loaded, though too deep".into());
    }
    if reference::print::print(&module) != case.form {
        return Err("the reference doesn't print what it read".into());
    }
    if oracle::read_and_print(&form, case.source.len())? != form {
        return Err("the oracle doesn't print what it read".into());
    }
    against_the_oracle(case, &module, rules, counts)
}

/// Every port answers as wanted.
fn same(case: &Case, wanted: &Printed, ports: &mut [Box<dyn Port>]) -> Result<(), String> {
    for port in ports {
        let found = port.instrument(&case.form, &case.source, &case.notes, &case.options);
        let wanted = wanted.clone().map_err(|refusal| (refusal.number, refusal.place));
        if found != wanted {
            let (found, wanted) = (show_result(found), show_result(wanted));
            let nodes = case.options.nodes;
            return Err(format!(
                "{} finds, in tables for {nodes} nodes,\n{found}\nthe rules say\n{wanted}",
                port.name()
            ));
        }
    }
    Ok(())
}

pub fn by_rules(case: &Case, rules: Rules) -> Printed {
    let Case { form, source, notes, options } = case;
    reference::instrument_by(rules, form, source, notes, options).map(|printed| text(&printed))
}

/// What the oracle prints, or a refusal if that is past the tables.
pub fn by_oracle(case: &Case) -> Result<Printed, String> {
    let (form, source) = (text(&case.form), text(&case.source));
    let printed = oracle::instrument(&form, &source, &case.notes, &case.options)?;
    let (nodes, size) = sizes(&printed);
    if nodes > case.options.nodes || size > 6 * case.options.nodes {
        return Ok(Err(Refusal { number: 4, place: 0 }));
    }
    Ok(Ok(printed))
}

fn against_the_oracle(
    case: &Case,
    module: &Node,
    rules: Printed,
    counts: &mut Counts,
) -> Result<(), String> {
    let enabled = case.options.dev && case.options.given;
    let published = by_oracle(case)?;
    // As the rules, but with the faults of the published pass put back.
    let faulty = by_rules(case, Rules::with_faults(ALL));
    if has_wrapper(module, &case.options) {
        counts.wrappers += 1;
        if published == faulty && published.is_ok() {
            return Err("taken for a wrapper, but the published pass finds none".into());
        }
        return Ok(());
    }
    if published != faulty {
        let same = match (&published, &faulty) {
            (Ok(p), Ok(f)) if renumber(p) == renumber(f) => " (but for the numbers of handles)",
            _ => "",
        };
        return Err(format!(
            "different{same}\nthe published pass\n{}\nthe rules{}\n{}",
            show_printed(&published),
            if rules == faulty { "" } else { ", with the faults put back" },
            show_printed(&faulty)
        ));
    }
    if rules != faulty {
        counts.faults += 1;
        let each = [
            Faults { hi: true, ..Faults::default() },
            Faults { attr: true, ..Faults::default() },
            Faults { key: true, ..Faults::default() },
        ];
        for (count, fault) in counts.fault.iter_mut().zip(each) {
            if by_rules(case, Rules::with_faults(fault)) != rules {
                *count += 1;
            }
        }
        return Ok(());
    }
    counts.compared += 1;
    let nodes = module.nodes();
    counts.nodes += nodes as u64;
    counts.most_nodes = counts.most_nodes.max(nodes);
    match &rules {
        Err(_) => counts.too_large += 1,
        Ok(_) if !enabled => counts.disabled += 1,
        Ok(_) => {
            let mut result = module.clone();
            let notes = &case.notes;
            reference::run(&mut result, &case.source, notes, &case.options, Rules::default())
                .map_err(|refusal| format!("refused the second time: {refusal:?}"))?;
            let before = counts.signatures;
            result.each(&mut |node| tell(node, counts));
            counts.signed += u64::from(counts.signatures > before);
        }
    }
    Ok(())
}

/// The case with the smallest tables that its result fits in, and with those for
/// one node less, where they are lawful: each with what the rules then say.
pub fn at_the_limit(case: &Case, rules: &Printed) -> Vec<(Case, Printed)> {
    let Ok(printed) = rules else { return Vec::new() };
    let (nodes, size) = sizes(printed);
    let least = nodes.max(size.div_ceil(6)).max(16);
    let with = |nodes: usize| {
        let options = case::Options { nodes, ..case.options.clone() };
        Case { options, ..case.clone() }
    };
    let mut limits = vec![(with(least), rules.clone())];
    if least > 16 {
        limits.push((with(least - 1), Err(Refusal { number: 4, place: 0 })));
    }
    limits
}

/// Counts a signature call or a registration.
fn tell(node: &Node, counts: &mut Counts) {
    if node.kind != Kind::Call {
        return;
    }
    let is = |i: usize, kind: Kind| node.parts.get(i).is_some_and(|part| part.kind == kind);
    if is(0, Kind::Hand) && is(2, Kind::Str) {
        counts.signatures += 1;
        counts.listed += u64::from(is(4, Kind::Fn));
        counts.reset += u64::from(is(3, Kind::Bool) && node.parts[3].text == b"true");
    } else if is(0, Kind::Id) && is(1, Kind::Hand) && is(2, Kind::Str) {
        counts.registered += 1;
    }
}

fn text(bytes: &[u8]) -> String {
    String::from_utf8_lossy(bytes).into_owned()
}

fn show_printed(printed: &Printed) -> String {
    show_result(printed.clone().map_err(|refusal| (refusal.number, refusal.place)))
}

fn show_result(result: Result<String, (u32, u64)>) -> String {
    match result {
        Ok(printed) => printed,
        Err((number, place)) => format!("refused: {number} at {place}\n"),
    }
}

/// The brackets open at the end, and the most open anywhere.
fn open_brackets(form: &[u8]) -> (usize, usize) {
    let (mut open, mut most) = (0usize, 0);
    for byte in form {
        match byte {
            b'(' => open += 1,
            b')' => open = open.saturating_sub(1),
            _ => {}
        }
        most = most.max(open);
    }
    (open, most)
}

// Refused forms

/// A refusal of the form must be of the first wrong token: none before the
/// place where a lawful form was spoilt, and what stands before the token must
/// begin some lawful text.
fn check_refusal(
    generated: &Generated,
    refusal: Refusal,
    counts: &mut Counts,
) -> Result<(), String> {
    let case = &generated.case;
    if !(1..=3).contains(&refusal.number) {
        return Ok(());
    }
    let place = refusal.place as usize;
    let rest = &case.form[place..];
    let end = rest.iter().position(|b| b"() \n".contains(b)).unwrap_or(rest.len());
    let in_name = |b: &u8| b.is_ascii_alphanumeric() || *b == b'_' || *b == b'$';
    let lawful = &rest[..end] == b"-" || rest[..end].iter().all(in_name);
    if lawful == (refusal.number == 1) {
        return Err(format!("refused with {} for its bytes", refusal.number));
    }
    if refusal.number == 3 {
        if open_brackets(&case.form[..place]).0 != 64 || rest.first() != Some(&b'(') {
            return Err(format!("refused at {place}, but not for its depth"));
        }
    } else {
        if oracle::read_and_print(&text(&case.form), case.source.len()).is_ok() {
            return Err(format!("refused at {place}, but the oracle reads it"));
        }
        match generated.spoilt {
            Some(from) if place < from => {
                return Err(format!("refused at {place}, but spoilt only from {from}"));
            }
            _ => {}
        }
    }
    if place > 4000 {
        return Ok(());
    }
    match complete(&case.form[..place], &case.source) {
        Some(true) => counts.completed += 1,
        Some(false) => return Err(format!("refused at {place}, but already wrong before")),
        None => {}
    }
    Ok(())
}

/// Whether some lawful text begins so; `None` if it would nest too deep.
fn complete(start: &[u8], source: &[u8]) -> Option<bool> {
    let tokens: &[&str] = &[
        ")", "\n", " ", "(", "0", "block", "lit", "id", "a", "-", "return", "decl", "prop", "func",
        "module", "var",
    ];
    let refused = |text: &[u8]| reference::read::read(text, source.len()).err();
    let mut whole = start.to_vec();
    for _ in 0..2000 {
        let Some(refusal) = refused(&whole) else {
            return Some(true);
        };
        if refusal.number == 3 {
            return None;
        }
        let end = whole.len();
        if refusal.place != end as u64 {
            return Some(false);
        }
        // The first token that isn't refused itself. A span may need its lo.
        let lo = last_number(&whole);
        let next = tokens.iter().map(|t| t.to_string()).chain([lo]).find(|token| {
            let longer = [&whole[..], token.as_bytes()].concat();
            refused(&longer).is_none_or(|r| r.place >= longer.len() as u64 || r.number == 3)
        })?;
        whole.extend_from_slice(next.as_bytes());
    }
    Some(false)
}

fn last_number(text: &[u8]) -> String {
    let text = String::from_utf8_lossy(text);
    text.trim_end().rsplit(' ').next().unwrap_or("0").to_string()
}
