//! From the text form to swc's tree. A record of swc's that has no kind of its
//! own in the form takes the span of the form it belongs to.

use std::collections::HashMap;

use swc_common::{BytePos, Mark, Span, SyntaxContext};
use swc_ecma_ast::*;

/// Scope numbers and the contexts that stand for them: 0 is the empty context,
/// 1 the top mark's, every other number has one of its own.
pub struct Scopes {
    top: Mark,
    contexts: HashMap<u32, SyntaxContext>,
    numbers: HashMap<SyntaxContext, u32>,
}

impl Scopes {
    pub fn new() -> Scopes {
        let top = Mark::fresh(Mark::root());
        let mut scopes = Scopes { top, contexts: HashMap::new(), numbers: HashMap::new() };
        scopes.enter(0, SyntaxContext::empty());
        scopes.enter(1, SyntaxContext::empty().apply_mark(top));
        scopes
    }

    fn enter(&mut self, number: u32, context: SyntaxContext) {
        self.contexts.insert(number, context);
        self.numbers.insert(context, number);
    }

    pub fn top_mark(&self) -> Mark {
        self.top
    }

    fn context(&mut self, number: u32) -> SyntaxContext {
        if !self.contexts.contains_key(&number) {
            self.enter(number, SyntaxContext::empty().apply_mark(Mark::new()));
        }
        self.contexts[&number]
    }

    /// `None` for a context that no scope stands for: that of a private name.
    pub fn number(&self, context: SyntaxContext) -> Option<u32> {
        self.numbers.get(&context).copied()
    }
}

// Forms

struct Form {
    kind: String,
    span: Span,
    words: Vec<String>,
    forms: Vec<Form>,
}

type Built<T> = Result<T, String>;

struct Reader<'a> {
    text: &'a [u8],
    at: usize,
    /// The last position a span may have.
    end: u32,
}

impl Reader<'_> {
    fn expect(&mut self, byte: u8) -> Built<()> {
        if self.text.get(self.at) == Some(&byte) {
            self.at += 1;
            Ok(())
        } else {
            Err(format!("{:?} expected at {}", byte as char, self.at))
        }
    }

    fn word(&mut self) -> Built<String> {
        let start = self.at;
        while let Some(byte) = self.text.get(self.at) {
            if matches!(byte, b'(' | b')' | b' ' | b'\n') {
                break;
            }
            self.at += 1;
        }
        if start == self.at {
            return Err(format!("a word expected at {start}"));
        }
        String::from_utf8(self.text[start..self.at].to_vec()).map_err(|e| e.to_string())
    }

    fn position(&mut self) -> Built<BytePos> {
        self.expect(b' ')?;
        Ok(BytePos(number(&self.word()?, self.end)?))
    }

    fn span(&mut self) -> Built<Span> {
        let span = Span::new(self.position()?, self.position()?);
        if span.lo > span.hi || (span.lo.is_dummy() && !span.hi.is_dummy()) {
            return Err(format!("no span before {}", self.at));
        }
        Ok(span)
    }

    fn form(&mut self) -> Built<Form> {
        self.expect(b'(')?;
        let kind = self.word()?;
        let span = self.span()?;
        let mut form = Form { kind, span, words: Vec::new(), forms: Vec::new() };
        while self.text.get(self.at) == Some(&b' ') {
            self.at += 1;
            if self.text.get(self.at) == Some(&b'(') {
                form.forms.push(self.form()?);
            } else if form.forms.is_empty() {
                form.words.push(self.word()?);
            } else {
                return Err(format!("a form expected at {}", self.at));
            }
        }
        self.expect(b')')?;
        form.check()?;
        Ok(form)
    }
}

fn number(word: &str, most: u32) -> Built<u32> {
    match word.parse::<u32>() {
        Ok(value) if value.to_string() == word && value <= most => Ok(value),
        _ => Err(format!("a number up to {most} expected, not {word}")),
    }
}

fn name(word: &str) -> Built<Atom> {
    let lawful = word.bytes().all(|b| b.is_ascii_alphanumeric() || b == b'_' || b == b'$');
    if !lawful || word.len() > 64 || word.starts_with(|c: char| c.is_ascii_digit()) {
        return Err(format!("a name expected, not {word}"));
    }
    Ok(word.into())
}

impl Form {
    /// The number of words and of forms that a kind has.
    fn check(&self) -> Built<()> {
        const MANY: usize = usize::MAX;
        let (words, forms) = match self.kind.as_str() {
            "module" | "lit" | "kwimport" => (0, 0..=0),
            "import" | "array" | "pat" => (0, 0..=MANY),
            "export" | "defexpr" | "expr" | "attr" => (0, 1..=1),
            "deffn" | "fn" if self.words == ["-"] => (1, 1..=MANY),
            "deffn" | "fn" | "func" => (0, 2..=MANY),
            "var" => (1, 1..=MANY),
            "return" => (0, 0..=1),
            "if" => (0, 2..=3),
            "block" => (1, 0..=MANY),
            "id" => (2, 0..=0),
            "prop" => (1, 0..=0),
            "call" | "arrow" | "tagged" | "jsx" => (0, 1..=MANY),
            "member" | "assign" | "dflt" => (0, 2..=2),
            "op" => (0, 1..=3),
            "decl" => (0, 1..=2),
            kind => return Err(format!("no kind: {kind}")),
        };
        if self.words.len() != words || !forms.contains(&self.forms.len()) {
            return Err(format!("not what follows in ({} …", self.kind));
        }
        Ok(())
    }

    fn word(&self, i: usize) -> Built<&str> {
        match self.words.get(i) {
            Some(word) => Ok(word),
            None => Err(format!("a word is missing in ({} …", self.kind)),
        }
    }

    fn part(&self, i: usize) -> Built<&Form> {
        match self.forms.get(i) {
            Some(form) => Ok(form),
            None => Err(format!("a form is missing in ({} …", self.kind)),
        }
    }

    fn last(&self) -> Built<&Form> {
        self.part(self.forms.len().wrapping_sub(1))
    }

    fn is(&self, kind: &str) -> bool {
        self.kind == kind
    }
}

// The tree

pub fn module(text: &str, source_length: usize, scopes: &mut Scopes) -> Built<Module> {
    let mut reader = Reader { text: text.as_bytes(), at: 0, end: source_length as u32 + 1 };
    let head = reader.form()?;
    reader.expect(b'\n')?;
    if !head.is("module") {
        return Err(format!("module expected, not {}", head.kind));
    }
    let mut builder = Builder { scopes };
    let mut body = Vec::new();
    while reader.at < reader.text.len() {
        let form = reader.form()?;
        reader.expect(b'\n')?;
        body.push(builder.item(&form)?);
    }
    Ok(Module { span: head.span, body, shebang: None })
}

struct Builder<'a> {
    scopes: &'a mut Scopes,
}

impl Builder<'_> {
    fn item(&mut self, f: &Form) -> Built<ModuleItem> {
        let decl = match f.kind.as_str() {
            "import" => {
                let mut specifiers = Vec::new();
                for (i, part) in f.forms.iter().enumerate() {
                    let local = self.ident(part)?;
                    specifiers.push(if i == 0 {
                        ImportSpecifier::Default(ImportDefaultSpecifier { span: f.span, local })
                    } else {
                        ImportSpecifier::Named(ImportNamedSpecifier {
                            span: f.span,
                            local,
                            is_type_only: false,
                        })
                    });
                }
                ModuleDecl::Import(ImportDecl {
                    span: f.span,
                    specifiers,
                    src: Box::new(Str { span: f.span, value: "".into(), raw: None }),
                    type_only: false,
                })
            }
            "export" => {
                let decl = self.decl(f.part(0)?)?;
                ModuleDecl::ExportDecl(ExportDecl { span: f.span, decl })
            }
            "deffn" => {
                let decl = DefaultDecl::Fn(self.fn_expr(f)?);
                ModuleDecl::ExportDefaultDecl(ExportDefaultDecl { span: f.span, decl })
            }
            "defexpr" => {
                let expr = self.expr(f.part(0)?)?;
                ModuleDecl::ExportDefaultExpr(ExportDefaultExpr { span: f.span, expr })
            }
            _ => return Ok(ModuleItem::Stmt(self.stmt(f)?)),
        };
        Ok(ModuleItem::ModuleDecl(decl))
    }

    fn decl(&mut self, f: &Form) -> Built<Decl> {
        match f.kind.as_str() {
            "func" => Ok(Decl::Fn(FnDecl {
                ident: self.ident(f.part(0)?)?,
                declare: false,
                function: self.function(f, 1)?,
            })),
            "var" => {
                let mut decls = Vec::new();
                for part in &f.forms {
                    if !part.is("decl") {
                        return Err(format!("decl expected, not {}", part.kind));
                    }
                    decls.push(VarDeclarator {
                        span: part.span,
                        name: self.pat(part.part(0)?)?,
                        init: match part.forms.get(1) {
                            Some(init) => Some(self.expr(init)?),
                            None => None,
                        },
                        definite: false,
                    });
                }
                let kind = match f.word(0)? {
                    "var" => VarDeclKind::Var,
                    "let" => VarDeclKind::Let,
                    "const" => VarDeclKind::Const,
                    word => return Err(format!("var, let or const expected, not {word}")),
                };
                let ctxt = SyntaxContext::empty();
                Ok(Decl::Var(Box::new(VarDecl { span: f.span, ctxt, kind, declare: false, decls })))
            }
            kind => Err(format!("func or var expected, not {kind}")),
        }
    }

    fn stmt(&mut self, f: &Form) -> Built<Stmt> {
        let span = f.span;
        Ok(match f.kind.as_str() {
            "expr" => Stmt::Expr(ExprStmt { span, expr: self.expr(f.part(0)?)? }),
            "var" | "func" => Stmt::Decl(self.decl(f)?),
            "return" => Stmt::Return(ReturnStmt {
                span,
                arg: match f.forms.first() {
                    Some(arg) => Some(self.expr(arg)?),
                    None => None,
                },
            }),
            "if" => Stmt::If(IfStmt {
                span,
                test: self.expr(f.part(0)?)?,
                cons: Box::new(self.stmt(f.part(1)?)?),
                alt: match f.forms.get(2) {
                    Some(alt) => Some(Box::new(self.stmt(alt)?)),
                    None => None,
                },
            }),
            "block" => Stmt::Block(self.block(f)?),
            kind => return Err(format!("a statement expected, not {kind}")),
        })
    }

    fn block(&mut self, f: &Form) -> Built<BlockStmt> {
        if !f.is("block") {
            return Err(format!("block expected, not {}", f.kind));
        }
        let ctxt = self.scopes.context(number(f.word(0)?, 65_535)?);
        let stmts = f.forms.iter().map(|s| self.stmt(s)).collect::<Built<_>>()?;
        Ok(BlockStmt { span: f.span, ctxt, stmts })
    }

    fn ident(&mut self, f: &Form) -> Built<Ident> {
        if !f.is("id") {
            return Err(format!("id expected, not {}", f.kind));
        }
        let ctxt = self.scopes.context(number(f.word(1)?, 65_535)?);
        Ok(Ident::new(name(f.word(0)?)?, f.span, ctxt))
    }

    fn prop(&mut self, f: &Form) -> Built<IdentName> {
        if !f.is("prop") {
            return Err(format!("prop expected, not {}", f.kind));
        }
        Ok(IdentName::new(name(f.word(0)?)?, f.span))
    }

    fn member(&mut self, f: &Form) -> Built<MemberExpr> {
        Ok(MemberExpr {
            span: f.span,
            obj: self.expr(f.part(0)?)?,
            prop: MemberProp::Ident(self.prop(f.part(1)?)?),
        })
    }

    /// The function of a form whose patterns start at `first` and whose last
    /// part is the block.
    fn function(&mut self, f: &Form, first: usize) -> Built<Box<Function>> {
        let mut params = Vec::new();
        for part in &f.forms[first..f.forms.len() - 1] {
            params.push(Param { span: f.span, decorators: Vec::new(), pat: self.pat(part)? });
        }
        Ok(Box::new(Function {
            params,
            span: f.span,
            body: Some(self.block(f.last()?)?),
            ..Function::default()
        }))
    }

    /// Of `fn` and `deffn`: a name or `-`, patterns, a block.
    fn fn_expr(&mut self, f: &Form) -> Built<FnExpr> {
        if f.words.first().map(String::as_str) == Some("-") {
            return Ok(FnExpr { ident: None, function: self.function(f, 0)? });
        }
        let ident = Some(self.ident(f.part(0)?)?);
        Ok(FnExpr { ident, function: self.function(f, 1)? })
    }

    fn pat(&mut self, f: &Form) -> Built<Pat> {
        Ok(match f.kind.as_str() {
            "id" => Pat::Ident(self.ident(f)?.into()),
            "pat" => {
                let mut elems = Vec::new();
                for part in &f.forms {
                    elems.push(Some(self.pat(part)?));
                }
                Pat::Array(ArrayPat { span: f.span, elems, optional: false })
            }
            "dflt" => Pat::Assign(AssignPat {
                span: f.span,
                left: Box::new(self.pat(f.part(0)?)?),
                right: self.expr(f.part(1)?)?,
            }),
            kind => return Err(format!("a pattern expected, not {kind}")),
        })
    }

    fn args(&mut self, forms: &[Form]) -> Built<Vec<ExprOrSpread>> {
        let mut args = Vec::new();
        for form in forms {
            args.push(ExprOrSpread { spread: None, expr: self.expr(form)? });
        }
        Ok(args)
    }

    fn expr(&mut self, f: &Form) -> Built<Box<Expr>> {
        let span = f.span;
        let ctxt = SyntaxContext::empty();
        Ok(Box::new(match f.kind.as_str() {
            "id" => Expr::Ident(self.ident(f)?),
            "lit" => Expr::Lit(Lit::Num(Number { span, value: 0.0, raw: None })),
            "call" => {
                let head = f.part(0)?;
                let callee = if head.is("kwimport") {
                    Callee::Import(Import { span: head.span })
                } else {
                    Callee::Expr(self.expr(head)?)
                };
                Expr::Call(CallExpr { span, ctxt, callee, args: self.args(&f.forms[1..])? })
            }
            "member" => Expr::Member(self.member(f)?),
            "array" => Expr::Array(ArrayLit {
                span,
                elems: self.args(&f.forms)?.into_iter().map(Some).collect(),
            }),
            "op" => match f.forms.len() {
                1 => Expr::Unary(UnaryExpr { span, op: op!("!"), arg: self.expr(f.part(0)?)? }),
                2 => Expr::Bin(BinExpr {
                    span,
                    op: op!("+"),
                    left: self.expr(f.part(0)?)?,
                    right: self.expr(f.part(1)?)?,
                }),
                _ => Expr::Cond(CondExpr {
                    span,
                    test: self.expr(f.part(0)?)?,
                    cons: self.expr(f.part(1)?)?,
                    alt: self.expr(f.part(2)?)?,
                }),
            },
            "assign" => {
                let target = f.part(0)?;
                let left = AssignTarget::Simple(if target.is("member") {
                    SimpleAssignTarget::Member(self.member(target)?)
                } else {
                    SimpleAssignTarget::Ident(self.ident(target)?.into())
                });
                Expr::Assign(AssignExpr { span, op: op!("="), left, right: self.expr(f.part(1)?)? })
            }
            "arrow" => {
                let last = f.last()?;
                let params = &f.forms[..f.forms.len() - 1];
                Expr::Arrow(ArrowExpr {
                    span,
                    ctxt,
                    params: params.iter().map(|p| self.pat(p)).collect::<Built<_>>()?,
                    body: Box::new(if last.is("block") {
                        BlockStmtOrExpr::BlockStmt(self.block(last)?)
                    } else {
                        BlockStmtOrExpr::Expr(self.expr(last)?)
                    }),
                    is_async: false,
                    is_generator: false,
                })
            }
            "fn" => Expr::Fn(self.fn_expr(f)?),
            "tagged" => {
                let exprs: Vec<Box<Expr>> =
                    f.forms[1..].iter().map(|e| self.expr(e)).collect::<Built<_>>()?;
                // One piece of text before each expression and one behind the last.
                let quasis = (0..=exprs.len())
                    .map(|i| TplElement { span, tail: i == exprs.len(), raw: "".into() })
                    .collect();
                Expr::TaggedTpl(TaggedTpl {
                    span,
                    ctxt,
                    tag: self.expr(f.part(0)?)?,
                    tpl: Box::new(Tpl { span, exprs, quasis }),
                })
            }
            "jsx" => Expr::JSXElement(Box::new(self.jsx(f)?)),
            kind => return Err(format!("an expression expected, not {kind}")),
        }))
    }

    fn jsx(&mut self, f: &Form) -> Built<JSXElement> {
        let span = f.span;
        let name = self.jsx_name(f.part(0)?)?;
        let mut attrs = Vec::new();
        let mut children = Vec::new();
        for part in &f.forms[1..] {
            if part.is("attr") {
                if !children.is_empty() {
                    return Err("attr behind a child".into());
                }
                let span = part.span;
                let expr = JSXExpr::Expr(self.expr(part.part(0)?)?);
                attrs.push(JSXAttrOrSpread::JSXAttr(JSXAttr {
                    span,
                    name: JSXAttrName::Ident(IdentName::new("a".into(), span)),
                    value: Some(JSXAttrValue::JSXExprContainer(JSXExprContainer { span, expr })),
                }));
            } else if part.is("jsx") {
                children.push(JSXElementChild::JSXElement(Box::new(self.jsx(part)?)));
            } else {
                let expr = JSXExpr::Expr(self.expr(part)?);
                children.push(JSXElementChild::JSXExprContainer(JSXExprContainer { span, expr }));
            }
        }
        let closing =
            (!children.is_empty()).then(|| JSXClosingElement { span, name: name.clone() });
        let self_closing = closing.is_none();
        let opening = JSXOpeningElement { name, span, attrs, self_closing };
        Ok(JSXElement { span, opening, children, closing })
    }

    fn jsx_name(&mut self, f: &Form) -> Built<JSXElementName> {
        Ok(if f.is("member") {
            JSXElementName::JSXMemberExpr(self.jsx_member(f)?)
        } else {
            JSXElementName::Ident(self.ident(f)?)
        })
    }

    fn jsx_member(&mut self, f: &Form) -> Built<JSXMemberExpr> {
        let object = f.part(0)?;
        let obj = if object.is("member") {
            JSXObject::JSXMemberExpr(Box::new(self.jsx_member(object)?))
        } else {
            JSXObject::Ident(self.ident(object)?)
        };
        Ok(JSXMemberExpr { span: f.span, obj, prop: self.prop(f.part(1)?)? })
    }
}
