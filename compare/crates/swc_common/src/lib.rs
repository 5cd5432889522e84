//! Stand-in for swc_common: what the refresh pass uses of it, under swc's names.

use std::{cell::RefCell, collections::HashMap, fmt, ops::Sub};

pub mod collections {
    pub type AHashSet<T> = std::collections::HashSet<T>;
    pub type AHashMap<K, V> = std::collections::HashMap<K, V>;
}

pub mod sync {
    pub type Lrc<T> = std::rc::Rc<T>;
}

pub mod util {
    pub mod take {
        /// Leaves a dummy behind and hands out the value.
        pub trait Take: Sized {
            fn take(&mut self) -> Self {
                std::mem::replace(self, Self::dummy())
            }

            fn dummy() -> Self;
        }

        impl<T> Take for Option<T> {
            fn dummy() -> Self {
                None
            }
        }

        impl<T> Take for Vec<T> {
            fn dummy() -> Self {
                Vec::new()
            }
        }

        impl<T: Take> Take for Box<T> {
            fn dummy() -> Self {
                Box::new(T::dummy())
            }
        }
    }
}

// Positions and spans

#[derive(Clone, Copy, Debug, Default, PartialEq, Eq, PartialOrd, Ord, Hash)]
pub struct BytePos(pub u32);

impl BytePos {
    pub const DUMMY: BytePos = BytePos(0);

    pub const fn is_dummy(self) -> bool {
        self.0 == 0
    }
}

impl Sub for BytePos {
    type Output = BytePos;

    fn sub(self, other: BytePos) -> BytePos {
        BytePos(self.0 - other.0)
    }
}

#[derive(Clone, Copy, Debug, Default, PartialEq, Eq, Hash)]
pub struct Span {
    pub lo: BytePos,
    pub hi: BytePos,
}

pub const DUMMY_SP: Span = Span { lo: BytePos::DUMMY, hi: BytePos::DUMMY };

impl Span {
    pub const fn new(lo: BytePos, hi: BytePos) -> Span {
        Span { lo, hi }
    }

    pub fn with_lo(self, lo: BytePos) -> Span {
        Span { lo, hi: self.hi }
    }
}

pub trait Spanned {
    fn span(&self) -> Span;
}

impl Spanned for Span {
    fn span(&self) -> Span {
        *self
    }
}

impl<T: Spanned + ?Sized> Spanned for Box<T> {
    fn span(&self) -> Span {
        (**self).span()
    }
}

impl<T: Spanned + ?Sized> Spanned for &T {
    fn span(&self) -> Span {
        (**self).span()
    }
}

// Marks and contexts

#[derive(Default)]
struct Hygiene {
    marks: u32,
    contexts: Vec<(SyntaxContext, Mark)>,
    known: HashMap<(SyntaxContext, Mark), SyntaxContext>,
}

thread_local! {
    static HYGIENE: RefCell<Hygiene> = RefCell::default();
}

/// Runs with tables of marks and contexts of its own (swc: `GLOBALS.set`).
pub fn with_new_globals<R>(f: impl FnOnce() -> R) -> R {
    let outer = HYGIENE.with(|h| h.take());
    let result = f();
    HYGIENE.with(|h| h.replace(outer));
    result
}

#[derive(Clone, Copy, Debug, PartialEq, Eq, PartialOrd, Ord, Hash)]
pub struct Mark(u32);

impl Mark {
    pub fn root() -> Mark {
        Mark(0)
    }

    /// A fresh mark; later ones are greater.
    #[allow(clippy::new_without_default)]
    pub fn new() -> Mark {
        HYGIENE.with(|h| {
            let mut h = h.borrow_mut();
            h.marks += 1;
            Mark(h.marks)
        })
    }

    pub fn fresh(_parent: Mark) -> Mark {
        Mark::new()
    }

    pub fn as_u32(self) -> u32 {
        self.0
    }
}

#[derive(Clone, Copy, Debug, Default, PartialEq, Eq, PartialOrd, Ord, Hash)]
pub struct SyntaxContext(u32);

impl SyntaxContext {
    pub const fn empty() -> SyntaxContext {
        SyntaxContext(0)
    }

    /// The one context of this context and this mark. (swc also lets a mark
    /// applied twice cancel; no mark here is applied to any but the empty
    /// context.)
    pub fn apply_mark(self, mark: Mark) -> SyntaxContext {
        HYGIENE.with(|h| {
            let mut h = h.borrow_mut();
            if let Some(&known) = h.known.get(&(self, mark)) {
                return known;
            }
            h.contexts.push((self, mark));
            let made = SyntaxContext(h.contexts.len() as u32);
            h.known.insert((self, mark), made);
            made
        })
    }

    /// The mark applied last; the root's for the empty context.
    pub fn outer(self) -> Mark {
        if self == SyntaxContext::empty() {
            return Mark::root();
        }
        HYGIENE.with(|h| h.borrow().contexts[self.0 as usize - 1].1)
    }
}

impl fmt::Display for SyntaxContext {
    fn fmt(&self, f: &mut fmt::Formatter<'_>) -> fmt::Result {
        write!(f, "#{}", self.0)
    }
}

// Source

#[derive(Debug)]
pub enum SpanSnippetError {
    DummyBytePos,
    IllFormedSpan(Span),
    MalformedForSourcemap(Span),
}

/// One source file, whose first byte has position 1.
pub struct SourceMap {
    src: String,
}

impl SourceMap {
    pub fn new(src: String) -> SourceMap {
        SourceMap { src }
    }
}

pub trait SourceMapper {
    fn span_to_snippet(&self, sp: Span) -> Result<String, Box<SpanSnippetError>>;
}

impl SourceMapper for SourceMap {
    fn span_to_snippet(&self, sp: Span) -> Result<String, Box<SpanSnippetError>> {
        if sp.lo > sp.hi {
            return Err(Box::new(SpanSnippetError::IllFormedSpan(sp)));
        }
        if sp.lo.is_dummy() || sp.hi.is_dummy() {
            return Err(Box::new(SpanSnippetError::DummyBytePos));
        }
        let start = sp.lo.0 as usize - 1;
        let end = sp.hi.0 as usize - 1;
        match self.src.get(start..end) {
            Some(part) => Ok(part.to_string()),
            None => Err(Box::new(SpanSnippetError::MalformedForSourcemap(sp))),
        }
    }
}

// Comments

pub mod comments {
    use std::{cell::RefCell, collections::HashMap, rc::Rc};

    use crate::{BytePos, Span};

    #[derive(Clone, Copy, Debug, PartialEq, Eq)]
    pub enum CommentKind {
        Line,
        Block,
    }

    #[derive(Clone, Debug)]
    pub struct Comment {
        pub kind: CommentKind,
        pub span: Span,
        pub text: Rc<str>,
    }

    pub trait Comments {
        fn add_leading(&self, pos: BytePos, comment: Comment);
        fn add_trailing(&self, pos: BytePos, comment: Comment);
        fn get_leading(&self, pos: BytePos) -> Option<Vec<Comment>>;
        fn get_trailing(&self, pos: BytePos) -> Option<Vec<Comment>>;

        /// `f` is called once, with no comments if there are none.
        fn with_leading<F, R>(&self, pos: BytePos, f: F) -> R
        where
            Self: Sized,
            F: FnOnce(&[Comment]) -> R,
        {
            f(&self.get_leading(pos).unwrap_or_default())
        }

        fn with_trailing<F, R>(&self, pos: BytePos, f: F) -> R
        where
            Self: Sized,
            F: FnOnce(&[Comment]) -> R,
        {
            f(&self.get_trailing(pos).unwrap_or_default())
        }
    }

    type Side = Rc<RefCell<HashMap<BytePos, Vec<Comment>>>>;

    #[derive(Clone, Debug, Default)]
    pub struct SingleThreadedComments {
        leading: Side,
        trailing: Side,
    }

    impl Comments for SingleThreadedComments {
        fn add_leading(&self, pos: BytePos, comment: Comment) {
            self.leading.borrow_mut().entry(pos).or_default().push(comment)
        }

        fn add_trailing(&self, pos: BytePos, comment: Comment) {
            self.trailing.borrow_mut().entry(pos).or_default().push(comment)
        }

        fn get_leading(&self, pos: BytePos) -> Option<Vec<Comment>> {
            self.leading.borrow().get(&pos).cloned()
        }

        fn get_trailing(&self, pos: BytePos) -> Option<Vec<Comment>> {
            self.trailing.borrow().get(&pos).cloned()
        }
    }
}
