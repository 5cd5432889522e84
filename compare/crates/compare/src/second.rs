//! A second check of what can be loaded, apart from the readers: an automaton
//! over tokens. Every open form keeps all the ways in which it may still go on;
//! a token is wrong exactly if none of them takes it.

/// The number and the place of a refusal.
type Refused = (u32, u64);

/// What may stand in a place of a form.
#[derive(Clone, Copy, PartialEq, Eq)]
enum Class {
    Item,
    Statement,
    Expression,
    Pattern,
    /// An expression, or `kwimport`.
    Callee,
    /// An expression or a block.
    Body,
    /// `id` or `member`.
    Target,
    JsxName,
    /// `func` or `var`.
    Exported,
    Id,
    Block,
    Decl,
    Prop,
    Attr,
    Module,
    // Runs
    Lo,
    Hi,
    Scope,
    Name,
    Word,
    Dash,
}

/// How often.
#[derive(Clone, Copy, PartialEq, Eq)]
enum Times {
    Once,
    Maybe,
    Any,
}

type Slot = (Class, Times);

/// The places left in an open form.
type Way = Vec<Slot>;

const STATEMENTS: &str = " expr var func return if block ";
const EXPRESSIONS: &str = " id lit call member array op assign arrow fn tagged jsx ";
const PATTERNS: &str = " id pat dflt ";

fn holds(class: Class, kind: &str) -> bool {
    let among = |kinds: &str| kinds.split(' ').any(|k| !k.is_empty() && k == kind);
    match class {
        Class::Item => among(STATEMENTS) || among("import export deffn defexpr"),
        Class::Statement => among(STATEMENTS),
        Class::Expression => among(EXPRESSIONS),
        Class::Pattern => among(PATTERNS),
        Class::Callee => among(EXPRESSIONS) || kind == "kwimport",
        Class::Body => among(EXPRESSIONS) || kind == "block",
        Class::Target | Class::JsxName => among("id member"),
        Class::Exported => among("func var"),
        Class::Id => kind == "id",
        Class::Block => kind == "block",
        Class::Decl => kind == "decl",
        Class::Prop => kind == "prop",
        Class::Attr => kind == "attr",
        Class::Module => kind == "module",
        Class::Lo | Class::Hi | Class::Scope | Class::Name | Class::Word | Class::Dash => false,
    }
}

fn is_run(class: Class) -> bool {
    matches!(class, Class::Lo | Class::Hi | Class::Scope | Class::Name | Class::Word | Class::Dash)
}

/// The ways of a form that stands for a class.
fn ways(kind: &str, class: Class) -> Vec<Way> {
    use Class::*;
    use Times::*;
    let span = [(Lo, Once), (Hi, Once)];
    let way = |rest: &[Slot]| -> Vec<Way> { vec![[&span[..], rest].concat()] };
    let either = |rest: &[Slot]| -> Vec<Way> {
        [(Id, Once), (Dash, Once)].iter().map(|&name| [&span[..], &[name], rest].concat()).collect()
    };
    match kind {
        "module" | "lit" | "kwimport" => way(&[]),
        "import" => way(&[(Id, Any)]),
        "export" => way(&[(Exported, Once)]),
        "deffn" | "fn" => either(&[(Pattern, Any), (Block, Once)]),
        "defexpr" | "expr" | "attr" => way(&[(Expression, Once)]),
        "var" => way(&[(Word, Once), (Decl, Once), (Decl, Any)]),
        "func" => way(&[(Id, Once), (Pattern, Any), (Block, Once)]),
        "return" => way(&[(Expression, Maybe)]),
        "if" => way(&[(Expression, Once), (Statement, Once), (Statement, Maybe)]),
        "block" => way(&[(Scope, Once), (Statement, Any)]),
        "id" => way(&[(Name, Once), (Scope, Once)]),
        "call" => way(&[(Callee, Once), (Expression, Any)]),
        "member" if class == JsxName => way(&[(JsxName, Once), (Prop, Once)]),
        "member" => way(&[(Expression, Once), (Prop, Once)]),
        "array" => way(&[(Expression, Any)]),
        "op" => way(&[(Expression, Once), (Expression, Maybe), (Expression, Maybe)]),
        "assign" => way(&[(Target, Once), (Expression, Once)]),
        "arrow" => way(&[(Pattern, Any), (Body, Once)]),
        "tagged" => way(&[(Expression, Once), (Expression, Any)]),
        "jsx" => way(&[(JsxName, Once), (Attr, Any), (Expression, Any)]),
        "pat" => way(&[(Pattern, Any)]),
        "dflt" => way(&[(Pattern, Once), (Expression, Once)]),
        "decl" => way(&[(Pattern, Once), (Expression, Maybe)]),
        "prop" => way(&[(Name, Once)]),
        _ => unreachable!("a kind that some class holds"),
    }
}

/// The slots of a way that the next part may fill, each with the way behind it.
fn next(way: &Way) -> Vec<(Class, Way)> {
    let mut found = Vec::new();
    for (i, &(class, times)) in way.iter().enumerate() {
        let rest = if times == Times::Any { &way[i..] } else { &way[i + 1..] };
        found.push((class, rest.to_vec()));
        if times == Times::Once {
            break;
        }
    }
    found
}

fn may_end(way: &Way) -> bool {
    way.iter().all(|&(_, times)| times != Times::Once)
}

/// Where the automaton is within the innermost open form, or between items.
#[derive(Clone, Copy, PartialEq, Eq)]
enum At {
    /// An item or the module's form must open; the end may come after the module.
    Line,
    LineFeed,
    /// Behind a bracket.
    Kind,
    /// Behind a part, and behind the blank that follows it.
    Part,
    Blank,
}

struct Open {
    ways: Vec<Way>,
    lo: Vec<u8>,
}

/// The nodes of a text that can be loaded.
pub fn load(text: &[u8], source_length: usize, nodes: usize) -> Result<u64, Refused> {
    if !(16..=8192).contains(&nodes) || source_length >= 65_536 {
        return Err((4, 0));
    }
    let last = (source_length + 1).to_string().into_bytes();
    let mut open: Vec<Open> = Vec::new();
    let mut at = At::Line;
    let mut seen_module = false;
    // The classes that the form just opened may stand for, with the ways left to
    // the form around it.
    let mut opened: Vec<(Class, Way)> = Vec::new();
    let (mut count, mut size) = (0usize, 0usize);
    let mut place = 0;
    loop {
        let rest = &text[place..];
        let length = match rest.first() {
            None => 0,
            Some(b'(' | b')' | b' ' | b'\n') => 1,
            Some(_) => rest.iter().take_while(|b| !b"() \n".contains(b)).count(),
        };
        let token = &rest[..length];
        let mut right = false;
        match (at, token) {
            (At::Line, b"") if seen_module => break,
            (At::Line, b"(") => {
                let class = if seen_module { Class::Item } else { Class::Module };
                opened = vec![(class, Vec::new())];
                (at, right) = (At::Kind, true);
            }
            (At::LineFeed, b"\n") => (at, right) = (At::Line, true),
            (At::Kind, _) => {
                let kind = String::from_utf8_lossy(token).into_owned();
                opened.retain(|&(class, _)| holds(class, &kind));
                if let Some(&(class, _)) = opened.first() {
                    if let Some(around) = open.last_mut() {
                        around.ways = opened.drain(..).map(|(_, way)| way).collect();
                    }
                    open.push(Open { ways: ways(&kind, class), lo: Vec::new() });
                    count += 1;
                    (at, right) = (At::Part, true);
                }
            }
            (At::Part, b" ") => {
                let form = open.last_mut().expect("a form");
                form.ways.retain(|way| !way.is_empty());
                right = !form.ways.is_empty();
                at = At::Blank;
            }
            (At::Part, b")") if open.last().expect("a form").ways.iter().any(may_end) => {
                open.pop();
                seen_module = true;
                right = true;
                at = if open.is_empty() { At::LineFeed } else { At::Part };
            }
            (At::Blank, b"(") => {
                let form = open.last_mut().expect("a form");
                opened = form.ways.iter().flat_map(next).filter(|s| !is_run(s.0)).collect();
                if !opened.is_empty() {
                    if open.len() == 64 {
                        return Err((3, place as u64));
                    }
                    (at, right) = (At::Kind, true);
                }
            }
            (At::Blank, run) if !run.is_empty() && !b") \n".contains(&run[0]) => {
                let form = open.last_mut().expect("a form");
                let all: Vec<(Class, Way)> = form.ways.iter().flat_map(next).collect();
                let mut left = Vec::new();
                for (class, way) in all {
                    if takes(class, run, &form.lo, &last) {
                        if class == Class::Lo {
                            form.lo = run.to_vec();
                        }
                        if class == Class::Name {
                            size += run.len();
                        }
                        left.push(way);
                    }
                }
                right = !left.is_empty();
                form.ways = left;
                at = At::Part;
            }
            _ => {}
        }
        if !right {
            let lawful = token.len() == 1 && b"() \n-".contains(&token[0])
                || token.iter().all(|&b| in_name(b));
            return Err((if lawful { 2 } else { 1 }, place as u64));
        }
        place += length;
    }
    if count > nodes || size > 6 * nodes {
        return Err((4, 0));
    }
    Ok(count as u64)
}

fn in_name(byte: u8) -> bool {
    byte == b'_' || byte == b'$' || byte.is_ascii_alphanumeric()
}

/// Whether a run can stand for a class, behind lo where hi is meant.
fn takes(class: Class, run: &[u8], lo: &[u8], last: &[u8]) -> bool {
    match class {
        Class::Lo => is_number(run) && !above(run, last),
        Class::Hi if lo == b"0" => run == b"0",
        Class::Hi => is_number(run) && !above(run, last) && !above(lo, run),
        Class::Scope => is_number(run) && !above(run, b"65535"),
        Class::Name => {
            run.len() <= 64 && run.iter().all(|&b| in_name(b)) && !run[0].is_ascii_digit()
        }
        Class::Word => [&b"var"[..], b"let", b"const"].contains(&run),
        Class::Dash => run == b"-",
        _ => false,
    }
}

fn is_number(run: &[u8]) -> bool {
    run == b"0" || (run[0] != b'0' && run.iter().all(u8::is_ascii_digit))
}

/// Of two numbers without leading zeros: whether the first is the larger.
fn above(one: &[u8], other: &[u8]) -> bool {
    (one.len(), one) > (other.len(), other)
}

#[cfg(test)]
mod tests {
    use super::*;

    #[test]
    fn first_wrong_tokens() {
        for (text, answer) in [
            ("", Err((2, 0))),
            ("(module 1 29)\n", Ok(1)),
            ("(module 1 29)", Err((2, 13))),
            ("(module 1 29)\n\n", Err((2, 14))),
            ("(module 1 30)\n", Err((2, 10))),
            ("(module 0 29)\n", Err((2, 10))),
            ("(module 5 4)\n", Err((2, 10))),
            ("(module 01 29)\n", Err((2, 8))),
            ("(module  1 29)\n", Err((2, 8))),
            ("( module 1 29)\n", Err((2, 1))),
            ("(module 1 29 )\n", Err((2, 12))),
            ("(module 1 29)\t\n", Err((1, 13))),
            ("(expr 1 2 (lit 1 2))\n", Err((2, 1))),
            ("(module 1 29)\n(lit 1 2)\n", Err((2, 15))),
            ("(module 1 29)\n(var 1 2 const)\n", Err((2, 28))),
            ("(module 1 29)\n(expr 1 2 (id 1 2 9a 1))\n", Err((2, 32))),
            ("(module 1 29)\n(expr 1 2 (id 1 2 a-b 1))\n", Err((1, 32))),
            ("(module 1 29)\n(expr 1 2 (id 1 2 a 65536))\n", Err((2, 34))),
            ("(module 1 29)\n(expr 1 2 (str 0 0 \"a\"))\n", Err((2, 25))),
            ("(module 1 29)\n(expr 0 0 (arrow 0 0 (id 0 0 a 1) (id 0 0 a 1)))\n", Ok(5)),
            ("(module 1 29)\n(expr 0 0 (arrow 0 0 (id 0 0 a 1)))\n", Ok(4)),
            ("(module 1 29)\n(expr 0 0 (arrow 0 0 (pat 0 0)))\n", Err((2, 44))),
        ] {
            assert_eq!(load(text.as_bytes(), 28, 16), answer, "{text:?}");
        }
    }
}
