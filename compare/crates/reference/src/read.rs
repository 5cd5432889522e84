//! From the text form to a tree, with the first wrong token of a text that
//! isn't lawful.

use crate::{
    tree::{Kind, Node},
    wrong::{Rules, Wrong},
    Refusal,
};

#[derive(Clone, Copy, PartialEq, Eq)]
enum Token<'a> {
    Open,
    Close,
    Blank,
    LineFeed,
    Run(&'a [u8]),
    End,
}

const STATEMENT: &[Kind] =
    &[Kind::Expr, Kind::Var, Kind::Func, Kind::Return, Kind::If, Kind::Block];
const ITEM_ONLY: &[Kind] = &[Kind::Import, Kind::Export, Kind::Deffn, Kind::Defexpr];
const EXPRESSION: &[Kind] = &[
    Kind::Id,
    Kind::Lit,
    Kind::Call,
    Kind::Member,
    Kind::Array,
    Kind::Op,
    Kind::Assign,
    Kind::Arrow,
    Kind::Fn,
    Kind::Tagged,
    Kind::Jsx,
];
const PATTERN: &[Kind] = &[Kind::Id, Kind::Pat, Kind::Dflt];
const DEEPEST: usize = 64;

pub fn is_name(bytes: &[u8]) -> bool {
    (1..=64).contains(&bytes.len())
        && bytes.iter().all(|&b| in_name(b))
        && !bytes[0].is_ascii_digit()
}

fn in_name(byte: u8) -> bool {
    matches!(byte, b'A'..=b'Z' | b'a'..=b'z' | b'0'..=b'9' | b'_' | b'$')
}

/// The module: a node of that kind with the items inside.
pub fn read(text: &[u8], source_length: usize) -> Result<Node, Refusal> {
    read_by(Rules::default(), text, source_length)
}

pub fn read_by(rules: Rules, text: &[u8], source_length: usize) -> Result<Node, Refusal> {
    let mut reader = Reader { text, at: 0, open: 0, end: source_length as u64 + 1, rules };
    let mut module = reader.form(&[Kind::Module])?;
    reader.pass(Token::LineFeed)?;
    while reader.token() != Token::End {
        module.parts.push(reader.form(&[STATEMENT, ITEM_ONLY].concat())?);
        reader.pass(Token::LineFeed)?;
    }
    Ok(module)
}

struct Reader<'a> {
    text: &'a [u8],
    /// Where the next token starts.
    at: usize,
    /// The brackets open.
    open: usize,
    /// The last position a span may have.
    end: u64,
    rules: Rules,
}

impl<'a> Reader<'a> {
    // Tokens

    fn token(&self) -> Token<'a> {
        match self.text.get(self.at) {
            None => Token::End,
            Some(b'(') => Token::Open,
            Some(b')') => Token::Close,
            Some(b' ') => Token::Blank,
            Some(b'\n') => Token::LineFeed,
            Some(_) => {
                let rest = &self.text[self.at..];
                let length = rest
                    .iter()
                    .position(|b| matches!(b, b'(' | b')' | b' ' | b'\n'))
                    .unwrap_or(rest.len());
                Token::Run(&rest[..length])
            }
        }
    }

    fn next(&mut self) {
        self.at += match self.token() {
            Token::End => 0,
            Token::Run(run) => run.len(),
            _ => 1,
        };
    }

    /// The refusal of the next token, which is wrong.
    fn wrong<T>(&self) -> Result<T, Refusal> {
        let mut behind = self.at + 1;
        let number = match self.token() {
            Token::Run(run) => {
                behind = self.at + run.len();
                let unlawful = match self.rules.wrong {
                    Wrong::UnlawfulAscii => !run.iter().all(u8::is_ascii_graphic),
                    Wrong::DashUnlawful => !run.iter().all(|&b| in_name(b)),
                    _ => run != b"-" && !run.iter().all(|&b| in_name(b)),
                };
                if unlawful {
                    1
                } else {
                    2
                }
            }
            _ => 2,
        };
        let place = if self.wrong_rule(Wrong::PlaceBehind) { behind } else { self.at };
        Err(Refusal { number, place: place as u64 })
    }

    fn wrong_rule(&self, wrong: Wrong) -> bool {
        self.rules.wrong(wrong)
    }

    fn pass(&mut self, token: Token) -> Result<(), Refusal> {
        if self.token() != token {
            return self.wrong();
        }
        self.next();
        Ok(())
    }

    /// Whether another part follows; if so, past its blank.
    fn more(&mut self) -> Result<bool, Refusal> {
        match self.token() {
            Token::Blank => {
                self.next();
                Ok(true)
            }
            Token::Close => Ok(false),
            _ => self.wrong(),
        }
    }

    fn number(&mut self, least: u64, most: u64, or_zero: bool) -> Result<u32, Refusal> {
        if let Token::Run(run) = self.token() {
            let digits = run.iter().all(u8::is_ascii_digit);
            let leading_zero =
                run.len() > 1 && run[0] == b'0' && !self.wrong_rule(Wrong::LeadingZeros);
            if digits && !leading_zero && run.len() <= 10 {
                let value = run.iter().fold(0, |n: u64, &d| n * 10 + u64::from(d - b'0'));
                if (least..=most).contains(&value) || (or_zero && value == 0) {
                    self.next();
                    return Ok(value as u32);
                }
            }
        }
        self.wrong()
    }

    fn scope(&mut self) -> Result<u32, Refusal> {
        let most = if self.wrong_rule(Wrong::Scope65536) { 65_536 } else { 65_535 };
        self.number(0, most, false)
    }

    fn name(&mut self) -> Result<Vec<u8>, Refusal> {
        match self.token() {
            Token::Run(run) if is_name(run) || self.nearly_name(run) => {
                self.next();
                Ok(run.to_vec())
            }
            _ => self.wrong(),
        }
    }

    /// A name only if a rule is misread.
    fn nearly_name(&self, run: &[u8]) -> bool {
        match self.rules.wrong {
            Wrong::Name65 => run.len() == 65 && is_name(&run[..64]) && in_name(run[64]),
            Wrong::NameDigit => run.len() <= 64 && run.iter().all(|&b| in_name(b)),
            _ => false,
        }
    }

    // Forms

    /// Bracket, kind and span.
    fn start(&mut self, kinds: &[Kind]) -> Result<Node, Refusal> {
        if self.token() != Token::Open {
            return self.wrong();
        }
        if self.open == DEEPEST + usize::from(self.wrong_rule(Wrong::Depth65)) {
            return Err(Refusal { number: 3, place: self.at as u64 });
        }
        self.open += 1;
        self.next();
        let found = match self.token() {
            Token::Run(run) => kinds.iter().find(|kind| kind.word().as_bytes() == run),
            _ => None,
        };
        let Some(&kind) = found else {
            return self.wrong();
        };
        self.next();
        self.pass(Token::Blank)?;
        let at_lo = self.at as u64;
        let lo = self.number(1, self.end, true)?;
        self.pass(Token::Blank)?;
        let most = self.end - u64::from(self.wrong_rule(Wrong::HiLength));
        let hi = match lo {
            0 if self.wrong_rule(Wrong::LoZero) => self.number(0, most, true),
            0 => self.number(0, 0, true),
            _ if self.wrong_rule(Wrong::HiBelow) => self.number(1, most, false),
            _ => self.number(u64::from(lo), most, false),
        };
        match hi {
            Err(refusal) if refusal.number == 2 && self.wrong_rule(Wrong::HiAtLo) => {
                Err(Refusal { number: 2, place: at_lo })
            }
            _ => Ok(Node::new(kind, lo, hi?)),
        }
    }

    fn close(&mut self) -> Result<(), Refusal> {
        self.pass(Token::Close)?;
        self.open -= 1;
        Ok(())
    }

    /// A blank and a form.
    fn part(&mut self, kinds: &[Kind]) -> Result<Node, Refusal> {
        self.pass(Token::Blank)?;
        self.form(kinds)
    }

    fn form(&mut self, kinds: &[Kind]) -> Result<Node, Refusal> {
        let mut node = self.start(kinds)?;
        match node.kind {
            Kind::Module | Kind::Lit | Kind::Kwimport => {}
            Kind::Import => {
                while self.more()? {
                    node.parts.push(self.form(&[Kind::Id])?);
                }
            }
            Kind::Export => node.parts.push(self.part(&[Kind::Func, Kind::Var])?),
            Kind::Defexpr | Kind::Expr | Kind::Attr => node.parts.push(self.part(EXPRESSION)?),
            Kind::Deffn | Kind::Fn => {
                self.pass(Token::Blank)?;
                if self.token() == Token::Run(b"-") {
                    self.next();
                } else {
                    node.named = true;
                    node.parts.push(self.form(&[Kind::Id])?);
                }
                self.patterns_and_block(&mut node)?;
            }
            Kind::Func => {
                node.parts.push(self.part(&[Kind::Id])?);
                self.patterns_and_block(&mut node)?;
            }
            Kind::Var => {
                self.pass(Token::Blank)?;
                match self.token() {
                    Token::Run(word @ (b"var" | b"let" | b"const")) => node.text = word.to_vec(),
                    _ => return self.wrong(),
                }
                self.next();
                if !self.wrong_rule(Wrong::VarEmpty) {
                    node.parts.push(self.part(&[Kind::Decl])?);
                }
                while self.more()? {
                    node.parts.push(self.form(&[Kind::Decl])?);
                }
            }
            Kind::Return => {
                if self.more()? {
                    node.parts.push(self.form(EXPRESSION)?);
                }
            }
            Kind::If => {
                node.parts.push(self.part(EXPRESSION)?);
                node.parts.push(self.part(STATEMENT)?);
                if self.more()? {
                    node.parts.push(self.form(STATEMENT)?);
                }
            }
            Kind::Block => {
                self.pass(Token::Blank)?;
                node.number = self.scope()?;
                while self.more()? {
                    node.parts.push(self.form(STATEMENT)?);
                }
            }
            Kind::Id => {
                self.pass(Token::Blank)?;
                node.text = self.name()?;
                self.pass(Token::Blank)?;
                node.number = self.scope()?;
            }
            Kind::Prop => {
                self.pass(Token::Blank)?;
                node.text = self.name()?;
            }
            Kind::Call => {
                node.parts.push(self.part(&[EXPRESSION, &[Kind::Kwimport]].concat())?);
                while self.more()? {
                    node.parts.push(self.form(EXPRESSION)?);
                }
            }
            Kind::Member => {
                node.parts.push(self.part(EXPRESSION)?);
                node.parts.push(self.part(&[Kind::Prop])?);
            }
            Kind::Array => {
                while self.more()? {
                    node.parts.push(self.form(EXPRESSION)?);
                }
            }
            Kind::Op => {
                node.parts.push(self.part(EXPRESSION)?);
                let most = if self.wrong_rule(Wrong::OpFour) { 4 } else { 3 };
                while node.parts.len() < most && self.more()? {
                    node.parts.push(self.form(EXPRESSION)?);
                }
            }
            Kind::Assign => {
                node.parts.push(self.part(&[Kind::Id, Kind::Member])?);
                node.parts.push(self.part(EXPRESSION)?);
            }
            Kind::Arrow => loop {
                let kinds = [EXPRESSION, PATTERN, &[Kind::Block]].concat();
                let part = self.part(&kinds)?;
                let kind = part.kind;
                node.parts.push(part);
                match kind {
                    Kind::Pat | Kind::Dflt
                        if self.wrong_rule(Wrong::ArrowPattern) && self.token() == Token::Close =>
                    {
                        break
                    }
                    Kind::Pat | Kind::Dflt => {}
                    // A pattern, if more follows, else the body.
                    Kind::Id if self.token() == Token::Blank => {}
                    _ => break,
                }
            },
            Kind::Tagged => {
                node.parts.push(self.part(EXPRESSION)?);
                while self.more()? {
                    node.parts.push(self.form(EXPRESSION)?);
                }
            }
            Kind::Jsx => {
                self.pass(Token::Blank)?;
                node.parts.push(self.jsx_name()?);
                let mut attrs = true;
                while self.more()? {
                    let part = if attrs {
                        self.form(&[EXPRESSION, &[Kind::Attr]].concat())?
                    } else {
                        self.form(EXPRESSION)?
                    };
                    attrs = part.kind == Kind::Attr || self.wrong_rule(Wrong::AttrBehind);
                    node.parts.push(part);
                }
            }
            Kind::Pat => {
                while self.more()? {
                    node.parts.push(self.form(PATTERN)?);
                }
            }
            Kind::Dflt => {
                node.parts.push(self.part(PATTERN)?);
                node.parts.push(self.part(EXPRESSION)?);
            }
            Kind::Decl => {
                node.parts.push(self.part(PATTERN)?);
                if self.more()? {
                    node.parts.push(self.form(EXPRESSION)?);
                }
            }
            Kind::Hand | Kind::Str | Kind::Bool => unreachable!("can stand nowhere"),
        }
        self.close()?;
        Ok(node)
    }

    fn patterns_and_block(&mut self, node: &mut Node) -> Result<(), Refusal> {
        loop {
            let part = self.part(&[PATTERN, &[Kind::Block]].concat())?;
            let block = part.kind == Kind::Block;
            node.parts.push(part);
            if block {
                return Ok(());
            }
        }
    }

    /// An `id`, or a `member` over such a name.
    fn jsx_name(&mut self) -> Result<Node, Refusal> {
        let mut node = self.start(&[Kind::Id, Kind::Member])?;
        self.pass(Token::Blank)?;
        if node.kind == Kind::Id {
            node.text = self.name()?;
            self.pass(Token::Blank)?;
            node.number = self.scope()?;
        } else {
            node.parts.push(self.jsx_name()?);
            node.parts.push(self.part(&[Kind::Prop])?);
        }
        self.close()?;
        Ok(node)
    }
}
