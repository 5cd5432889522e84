//! Modules as trees.

#[derive(Clone, Copy, Debug, PartialEq, Eq)]
pub enum Kind {
    Module,
    // items
    Import,
    Export,
    Deffn,
    Defexpr,
    // statements
    Expr,
    Var,
    Func,
    Return,
    If,
    Block,
    // expressions
    Id,
    Lit,
    Call,
    Member,
    Array,
    Op,
    Assign,
    Arrow,
    Fn,
    Tagged,
    Jsx,
    // patterns
    Pat,
    Dflt,
    // parts
    Decl,
    Prop,
    Attr,
    Kwimport,
    // from run only
    Hand,
    Str,
    Bool,
}

impl Kind {
    pub fn word(self) -> &'static str {
        match self {
            Kind::Module => "module",
            Kind::Import => "import",
            Kind::Export => "export",
            Kind::Deffn => "deffn",
            Kind::Defexpr => "defexpr",
            Kind::Expr => "expr",
            Kind::Var => "var",
            Kind::Func => "func",
            Kind::Return => "return",
            Kind::If => "if",
            Kind::Block => "block",
            Kind::Id => "id",
            Kind::Lit => "lit",
            Kind::Call => "call",
            Kind::Member => "member",
            Kind::Array => "array",
            Kind::Op => "op",
            Kind::Assign => "assign",
            Kind::Arrow => "arrow",
            Kind::Fn => "fn",
            Kind::Tagged => "tagged",
            Kind::Jsx => "jsx",
            Kind::Pat => "pat",
            Kind::Dflt => "dflt",
            Kind::Decl => "decl",
            Kind::Prop => "prop",
            Kind::Attr => "attr",
            Kind::Kwimport => "kwimport",
            Kind::Hand => "hand",
            Kind::Str => "str",
            Kind::Bool => "bool",
        }
    }
}

#[derive(Clone, Debug, PartialEq, Eq)]
pub struct Node {
    pub kind: Kind,
    pub lo: u32,
    pub hi: u32,
    /// The name of `id` and `prop`, the word of `var` and `bool`, the letter of
    /// `hand`, the text of `str`; else empty.
    pub text: Vec<u8>,
    /// The scope of `id` and `block`, the number of `hand`; else 0.
    pub number: u32,
    /// For `fn` and `deffn`: whether the first part is the name, not `-`.
    pub named: bool,
    /// The nodes inside, in order.
    pub parts: Vec<Node>,
    /// The span as loaded. A signature call has that of its function.
    pub loaded: (u32, u32),
}

impl Node {
    pub fn new(kind: Kind, lo: u32, hi: u32) -> Node {
        Node {
            kind,
            lo,
            hi,
            text: Vec::new(),
            number: 0,
            named: false,
            parts: Vec::new(),
            loaded: (lo, hi),
        }
    }

    /// A made node: span `0 0`, scope 0.
    pub fn made(kind: Kind, parts: Vec<Node>) -> Node {
        Node { parts, ..Node::new(kind, 0, 0) }
    }

    pub fn is_function(&self) -> bool {
        self.kind == Kind::Fn || self.kind == Kind::Arrow
    }

    pub fn is_statement(&self) -> bool {
        use Kind::*;
        matches!(self.kind, Expr | Var | Func | Return | If | Block)
    }

    /// Of a kind that only an item has.
    pub fn is_item(&self) -> bool {
        matches!(self.kind, Kind::Import | Kind::Export | Kind::Deffn | Kind::Defexpr)
    }

    pub fn nodes(&self) -> usize {
        1 + self.parts.iter().map(Node::nodes).sum::<usize>()
    }

    /// The total length of names and texts.
    pub fn text_size(&self) -> usize {
        let own = match self.kind {
            Kind::Id | Kind::Prop | Kind::Str => self.text.len(),
            _ => 0,
        };
        own + self.parts.iter().map(Node::text_size).sum::<usize>()
    }

    /// This node and all inside it, in visiting order.
    pub fn each<'a>(&'a self, see: &mut dyn FnMut(&'a Node)) {
        see(self);
        for part in &self.parts {
            part.each(see);
        }
    }
}
