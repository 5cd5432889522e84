//! Stand-in for swc_ecma_utils: the makers of nodes that the refresh pass uses.

use swc_ecma_ast::{Callee, Expr, ExprOrSpread};

#[doc(hidden)]
pub use {swc_common, swc_ecma_ast};

#[allow(clippy::wrong_self_convention)]
pub trait ExprFactory: Into<Expr> {
    fn as_arg(self) -> ExprOrSpread {
        ExprOrSpread { spread: None, expr: Box::new(self.into()) }
    }

    fn as_callee(self) -> Callee {
        Callee::Expr(Box::new(self.into()))
    }
}

impl<T: Into<Expr>> ExprFactory for T {}

/// An identifier that is the same as no other: its context has a fresh mark.
#[macro_export]
macro_rules! private_ident {
    ($s:expr) => {{
        let mark = $crate::swc_common::Mark::new();
        let ctxt = $crate::swc_common::SyntaxContext::empty().apply_mark(mark);
        $crate::swc_ecma_ast::Ident::new($s.into(), $crate::swc_common::DUMMY_SP, ctxt)
    }};
}

#[macro_export]
macro_rules! quote_ident {
    ($s:expr) => {
        $crate::swc_ecma_ast::IdentName::new($s.into(), $crate::swc_common::DUMMY_SP)
    };
}

#[macro_export]
macro_rules! quote_str {
    ($s:expr) => {
        $crate::swc_ecma_ast::Str {
            span: $crate::swc_common::DUMMY_SP,
            value: $s.into(),
            raw: None,
        }
    };
}
