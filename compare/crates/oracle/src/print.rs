//! From swc's tree to the text form.

use std::collections::BTreeMap;

use case::quote;
use swc_common::{Span, Spanned, SyntaxContext};
use swc_ecma_ast::*;
use swc_ecma_visit::{Visit, VisitWith};

use crate::build::Scopes;

pub fn module(tree: &Module, scopes: &Scopes) -> String {
    let mut handles = Handles { scopes, made: BTreeMap::new() };
    tree.visit_with(&mut handles);
    let mut printer = Printer { out: String::new(), scopes, handles: BTreeMap::new() };
    // Marks are handed out in ascending order, so this is the order of making.
    for (number, context) in handles.made.into_values().enumerate() {
        printer.handles.insert(context, number);
    }
    printer.module(tree);
    printer.out
}

/// The private names in a tree, by their marks.
struct Handles<'a> {
    scopes: &'a Scopes,
    made: BTreeMap<u32, SyntaxContext>,
}

impl Visit for Handles<'_> {
    fn visit_ident(&mut self, n: &Ident) {
        if self.scopes.number(n.ctxt).is_none() {
            self.made.insert(n.ctxt.outer().as_u32(), n.ctxt);
        }
    }
}

struct Printer<'a> {
    out: String,
    scopes: &'a Scopes,
    handles: BTreeMap<SyntaxContext, usize>,
}

impl Printer<'_> {
    fn open(&mut self, kind: &str, span: Span) {
        self.out.push_str(&format!("({kind} {} {}", span.lo.0, span.hi.0));
    }

    fn word(&mut self, word: &str) {
        self.out.push(' ');
        self.out.push_str(word);
    }

    fn scope(&mut self, context: SyntaxContext) {
        let number = self.scopes.number(context).expect("a scope of the form");
        self.word(&number.to_string());
    }

    fn close(&mut self) {
        self.out.push(')');
    }

    fn part(&mut self) {
        self.out.push(' ');
    }

    fn module(&mut self, n: &Module) {
        self.open("module", n.span);
        self.close();
        self.out.push('\n');
        for item in &n.body {
            self.item(item);
            self.out.push('\n');
        }
    }

    fn item(&mut self, n: &ModuleItem) {
        match n {
            ModuleItem::Stmt(s) => self.stmt(s),
            ModuleItem::ModuleDecl(ModuleDecl::Import(n)) => {
                self.open("import", n.span);
                for specifier in &n.specifiers {
                    self.part();
                    match specifier {
                        ImportSpecifier::Named(s) => self.ident(&s.local),
                        ImportSpecifier::Default(s) => self.ident(&s.local),
                    }
                }
                self.close();
            }
            ModuleItem::ModuleDecl(ModuleDecl::ExportDecl(n)) => {
                self.open("export", n.span);
                self.part();
                self.decl(&n.decl);
                self.close();
            }
            ModuleItem::ModuleDecl(ModuleDecl::ExportDefaultDecl(n)) => {
                let DefaultDecl::Fn(f) = &n.decl;
                self.fn_expr("deffn", n.span, f);
            }
            ModuleItem::ModuleDecl(ModuleDecl::ExportDefaultExpr(n)) => {
                self.open("defexpr", n.span);
                self.part();
                self.expr(&n.expr);
                self.close();
            }
        }
    }

    fn decl(&mut self, n: &Decl) {
        match n {
            Decl::Fn(n) => {
                self.open("func", n.span());
                self.part();
                self.ident(&n.ident);
                self.function(&n.function);
                self.close();
            }
            Decl::Var(n) => {
                self.open("var", n.span);
                self.word(match n.kind {
                    VarDeclKind::Var => "var",
                    VarDeclKind::Let => "let",
                    VarDeclKind::Const => "const",
                });
                for decl in &n.decls {
                    self.part();
                    self.open("decl", decl.span);
                    self.part();
                    self.pat(&decl.name);
                    if let Some(init) = &decl.init {
                        self.part();
                        self.expr(init);
                    }
                    self.close();
                }
                self.close();
            }
            Decl::TsModule(_) => unreachable!("no kind of the form"),
        }
    }

    /// Patterns and block.
    fn function(&mut self, n: &Function) {
        for param in &n.params {
            self.part();
            self.pat(&param.pat);
        }
        self.part();
        self.block(n.body.as_ref().expect("a body"));
    }

    fn fn_expr(&mut self, kind: &str, span: Span, n: &FnExpr) {
        self.open(kind, span);
        match &n.ident {
            Some(ident) => {
                self.part();
                self.ident(ident);
            }
            None => self.word("-"),
        }
        self.function(&n.function);
        self.close();
    }

    fn stmt(&mut self, n: &Stmt) {
        match n {
            Stmt::Block(n) => self.block(n),
            Stmt::Return(n) => {
                self.open("return", n.span);
                if let Some(arg) = &n.arg {
                    self.part();
                    self.expr(arg);
                }
                self.close();
            }
            Stmt::If(n) => {
                self.open("if", n.span);
                self.part();
                self.expr(&n.test);
                self.part();
                self.stmt(&n.cons);
                if let Some(alt) = &n.alt {
                    self.part();
                    self.stmt(alt);
                }
                self.close();
            }
            Stmt::Decl(n) => self.decl(n),
            Stmt::Expr(n) => {
                self.open("expr", n.span);
                self.part();
                self.expr(&n.expr);
                self.close();
            }
        }
    }

    fn block(&mut self, n: &BlockStmt) {
        self.open("block", n.span);
        self.scope(n.ctxt);
        for stmt in &n.stmts {
            self.part();
            self.stmt(stmt);
        }
        self.close();
    }

    fn ident(&mut self, n: &Ident) {
        match self.handles.get(&n.ctxt).copied() {
            Some(number) => {
                self.open("hand", n.span);
                self.word(&n.sym);
                self.word(&number.to_string());
            }
            None => {
                self.open("id", n.span);
                self.word(&n.sym);
                self.scope(n.ctxt);
            }
        }
        self.close();
    }

    fn prop(&mut self, n: &IdentName) {
        self.open("prop", n.span);
        self.word(&n.sym);
        self.close();
    }

    fn pat(&mut self, n: &Pat) {
        match n {
            Pat::Ident(n) => self.ident(&n.id),
            Pat::Array(n) => {
                self.open("pat", n.span);
                for elem in &n.elems {
                    self.part();
                    self.pat(elem.as_ref().expect("no holes"));
                }
                self.close();
            }
            Pat::Assign(n) => {
                self.open("dflt", n.span);
                self.part();
                self.pat(&n.left);
                self.part();
                self.expr(&n.right);
                self.close();
            }
        }
    }

    fn member(&mut self, n: &MemberExpr) {
        self.open("member", n.span);
        self.part();
        self.expr(&n.obj);
        self.part();
        match &n.prop {
            MemberProp::Ident(prop) => self.prop(prop),
            MemberProp::Computed(_) => unreachable!("no kind of the form"),
        }
        self.close();
    }

    fn several(&mut self, kind: &str, span: Span, parts: &[&Expr]) {
        self.open(kind, span);
        for part in parts {
            self.part();
            self.expr(part);
        }
        self.close();
    }

    fn expr(&mut self, n: &Expr) {
        match n {
            Expr::Ident(n) => self.ident(n),
            Expr::Lit(Lit::Num(n)) => {
                self.open("lit", n.span);
                self.close();
            }
            Expr::Lit(Lit::Str(n)) => {
                self.open("str", n.span);
                let mut text = Vec::new();
                quote(n.value.as_bytes(), &mut text);
                self.word(&String::from_utf8(text).expect("UTF-8"));
                self.close();
            }
            Expr::Lit(Lit::Bool(n)) => {
                self.open("bool", n.span);
                self.word(if n.value { "true" } else { "false" });
                self.close();
            }
            Expr::Call(n) => {
                self.open("call", n.span);
                self.part();
                match &n.callee {
                    Callee::Expr(callee) => self.expr(callee),
                    Callee::Import(import) => {
                        self.open("kwimport", import.span);
                        self.close();
                    }
                    Callee::Super(_) => unreachable!("no kind of the form"),
                }
                for arg in &n.args {
                    self.part();
                    self.expr(&arg.expr);
                }
                self.close();
            }
            Expr::Member(n) => self.member(n),
            Expr::Array(n) => {
                self.open("array", n.span);
                for elem in &n.elems {
                    self.part();
                    self.expr(&elem.as_ref().expect("no holes").expr);
                }
                self.close();
            }
            Expr::Unary(n) => self.several("op", n.span, &[&n.arg]),
            Expr::Bin(n) => self.several("op", n.span, &[&n.left, &n.right]),
            Expr::Cond(n) => self.several("op", n.span, &[&n.test, &n.cons, &n.alt]),
            Expr::Assign(n) => {
                self.open("assign", n.span);
                self.part();
                match &n.left {
                    AssignTarget::Simple(SimpleAssignTarget::Ident(n)) => self.ident(&n.id),
                    AssignTarget::Simple(SimpleAssignTarget::Member(n)) => self.member(n),
                }
                self.part();
                self.expr(&n.right);
                self.close();
            }
            Expr::Arrow(n) => {
                self.open("arrow", n.span);
                for param in &n.params {
                    self.part();
                    self.pat(param);
                }
                self.part();
                match &*n.body {
                    BlockStmtOrExpr::BlockStmt(block) => self.block(block),
                    BlockStmtOrExpr::Expr(expr) => self.expr(expr),
                }
                self.close();
            }
            Expr::Fn(n) => self.fn_expr("fn", n.span(), n),
            Expr::TaggedTpl(n) => {
                self.open("tagged", n.span);
                self.part();
                self.expr(&n.tag);
                for expr in &n.tpl.exprs {
                    self.part();
                    self.expr(expr);
                }
                self.close();
            }
            Expr::JSXElement(n) => self.jsx(n),
            Expr::Invalid(_) => self.out.push_str("(invalid)"),
        }
    }

    fn jsx(&mut self, n: &JSXElement) {
        self.open("jsx", n.span);
        self.part();
        match &n.opening.name {
            JSXElementName::Ident(name) => self.ident(name),
            JSXElementName::JSXMemberExpr(name) => self.jsx_member(name),
        }
        for JSXAttrOrSpread::JSXAttr(attr) in &n.opening.attrs {
            self.part();
            self.open("attr", attr.span);
            if let Some(JSXAttrValue::JSXExprContainer(container)) = &attr.value {
                let JSXExpr::Expr(expr) = &container.expr;
                self.part();
                self.expr(expr);
            }
            self.close();
        }
        for child in &n.children {
            self.part();
            match child {
                JSXElementChild::JSXElement(child) => self.jsx(child),
                JSXElementChild::JSXExprContainer(container) => {
                    let JSXExpr::Expr(expr) = &container.expr;
                    self.expr(expr)
                }
            }
        }
        self.close();
    }

    fn jsx_member(&mut self, n: &JSXMemberExpr) {
        self.open("member", n.span);
        self.part();
        match &n.obj {
            JSXObject::Ident(object) => self.ident(object),
            JSXObject::JSXMemberExpr(object) => self.jsx_member(object),
        }
        self.part();
        self.prop(&n.prop);
        self.close();
    }
}
