//! Stand-in for swc_ecma_ast: the kinds of tree that the refresh pass is run on,
//! with swc's names and swc's order of fields. Types, decorators, classes and
//! the rest of the language are left out.

use std::{fmt, ops::Deref, rc::Rc};

use swc_common::{util::take::Take, Span, Spanned, SyntaxContext, DUMMY_SP};

// Names

#[derive(Clone, Debug, PartialEq, Eq, Hash)]
pub struct Atom(Rc<str>);

impl Default for Atom {
    fn default() -> Self {
        Atom(Rc::from(""))
    }
}

impl Deref for Atom {
    type Target = str;

    fn deref(&self) -> &str {
        &self.0
    }
}

impl AsRef<str> for Atom {
    fn as_ref(&self) -> &str {
        &self.0
    }
}

impl From<&str> for Atom {
    fn from(text: &str) -> Self {
        Atom(Rc::from(text))
    }
}

impl From<String> for Atom {
    fn from(text: String) -> Self {
        Atom(Rc::from(text))
    }
}

impl PartialEq<str> for Atom {
    fn eq(&self, other: &str) -> bool {
        &*self.0 == other
    }
}

impl PartialEq<&str> for Atom {
    fn eq(&self, other: &&str) -> bool {
        &*self.0 == *other
    }
}

impl fmt::Display for Atom {
    fn fmt(&self, f: &mut fmt::Formatter<'_>) -> fmt::Result {
        f.write_str(&self.0)
    }
}

pub type Id = (Atom, SyntaxContext);

#[derive(Clone, Debug, Default)]
pub struct Ident {
    pub span: Span,
    pub ctxt: SyntaxContext,
    pub sym: Atom,
    pub optional: bool,
}

impl Ident {
    pub fn new(sym: Atom, span: Span, ctxt: SyntaxContext) -> Ident {
        Ident { span, ctxt, sym, optional: false }
    }

    pub fn to_id(&self) -> Id {
        (self.sym.clone(), self.ctxt)
    }
}

impl fmt::Display for Ident {
    fn fmt(&self, f: &mut fmt::Formatter<'_>) -> fmt::Result {
        write!(f, "{}{}", self.sym, self.ctxt)
    }
}

#[derive(Clone, Debug, Default)]
pub struct IdentName {
    pub span: Span,
    pub sym: Atom,
}

impl IdentName {
    pub fn new(sym: Atom, span: Span) -> IdentName {
        IdentName { span, sym }
    }
}

#[derive(Clone, Debug, Default)]
pub struct BindingIdent {
    pub id: Ident,
}

impl BindingIdent {
    pub fn to_id(&self) -> Id {
        self.id.to_id()
    }
}

// Module and items

#[derive(Clone, Debug, Default)]
pub struct Module {
    pub span: Span,
    pub body: Vec<ModuleItem>,
    pub shebang: Option<Atom>,
}

#[derive(Clone, Debug, Default)]
pub struct Script {
    pub span: Span,
    pub body: Vec<Stmt>,
    pub shebang: Option<Atom>,
}

#[derive(Clone, Debug)]
pub enum ModuleItem {
    ModuleDecl(ModuleDecl),
    Stmt(Stmt),
}

#[derive(Clone, Debug)]
pub enum ModuleDecl {
    Import(ImportDecl),
    ExportDecl(ExportDecl),
    ExportDefaultDecl(ExportDefaultDecl),
    ExportDefaultExpr(ExportDefaultExpr),
}

#[derive(Clone, Debug)]
pub struct ImportDecl {
    pub span: Span,
    pub specifiers: Vec<ImportSpecifier>,
    pub src: Box<Str>,
    pub type_only: bool,
}

#[derive(Clone, Debug)]
pub enum ImportSpecifier {
    Named(ImportNamedSpecifier),
    Default(ImportDefaultSpecifier),
}

#[derive(Clone, Debug)]
pub struct ImportNamedSpecifier {
    pub span: Span,
    pub local: Ident,
    pub is_type_only: bool,
}

#[derive(Clone, Debug)]
pub struct ImportDefaultSpecifier {
    pub span: Span,
    pub local: Ident,
}

#[derive(Clone, Debug)]
pub struct ExportDecl {
    pub span: Span,
    pub decl: Decl,
}

#[derive(Clone, Debug)]
pub struct ExportDefaultDecl {
    pub span: Span,
    pub decl: DefaultDecl,
}

#[derive(Clone, Debug)]
pub enum DefaultDecl {
    Fn(FnExpr),
}

#[derive(Clone, Debug)]
pub struct ExportDefaultExpr {
    pub span: Span,
    pub expr: Box<Expr>,
}

#[derive(Clone, Debug, Default)]
pub struct TsModuleDecl {
    pub span: Span,
}

// Statements

#[derive(Clone, Debug)]
pub enum Stmt {
    Block(BlockStmt),
    Return(ReturnStmt),
    If(IfStmt),
    Decl(Decl),
    Expr(ExprStmt),
}

#[derive(Clone, Debug, Default)]
pub struct BlockStmt {
    pub span: Span,
    pub ctxt: SyntaxContext,
    pub stmts: Vec<Stmt>,
}

#[derive(Clone, Debug)]
pub struct ReturnStmt {
    pub span: Span,
    pub arg: Option<Box<Expr>>,
}

#[derive(Clone, Debug)]
pub struct IfStmt {
    pub span: Span,
    pub test: Box<Expr>,
    pub cons: Box<Stmt>,
    pub alt: Option<Box<Stmt>>,
}

#[derive(Clone, Debug)]
pub struct ExprStmt {
    pub span: Span,
    pub expr: Box<Expr>,
}

#[derive(Clone, Debug)]
pub enum Decl {
    Fn(FnDecl),
    Var(Box<VarDecl>),
    TsModule(Box<TsModuleDecl>),
}

#[derive(Clone, Debug)]
pub struct FnDecl {
    pub ident: Ident,
    pub declare: bool,
    pub function: Box<Function>,
}

#[derive(Clone, Copy, Debug, Default, PartialEq, Eq)]
pub enum VarDeclKind {
    #[default]
    Var,
    Let,
    Const,
}

#[derive(Clone, Debug, Default)]
pub struct VarDecl {
    pub span: Span,
    pub ctxt: SyntaxContext,
    pub kind: VarDeclKind,
    pub declare: bool,
    pub decls: Vec<VarDeclarator>,
}

#[derive(Clone, Debug)]
pub struct VarDeclarator {
    pub span: Span,
    pub name: Pat,
    pub init: Option<Box<Expr>>,
    pub definite: bool,
}

// Functions and patterns

#[derive(Clone, Debug, Default)]
pub struct Function {
    pub params: Vec<Param>,
    pub decorators: Vec<Decorator>,
    pub span: Span,
    pub ctxt: SyntaxContext,
    pub body: Option<BlockStmt>,
    pub is_generator: bool,
    pub is_async: bool,
}

/// Never made.
#[derive(Clone, Debug)]
pub enum Decorator {}

#[derive(Clone, Debug)]
pub struct Param {
    pub span: Span,
    pub decorators: Vec<Decorator>,
    pub pat: Pat,
}

#[derive(Clone, Debug)]
pub enum Pat {
    Ident(BindingIdent),
    Array(ArrayPat),
    Assign(AssignPat),
}

#[derive(Clone, Debug)]
pub struct ArrayPat {
    pub span: Span,
    pub elems: Vec<Option<Pat>>,
    pub optional: bool,
}

#[derive(Clone, Debug)]
pub struct AssignPat {
    pub span: Span,
    pub left: Box<Pat>,
    pub right: Box<Expr>,
}

// Expressions

#[derive(Clone, Debug)]
pub enum Expr {
    Array(ArrayLit),
    Fn(FnExpr),
    Unary(UnaryExpr),
    Bin(BinExpr),
    Assign(AssignExpr),
    Member(MemberExpr),
    Cond(CondExpr),
    Call(CallExpr),
    Ident(Ident),
    Lit(Lit),
    TaggedTpl(TaggedTpl),
    Arrow(ArrowExpr),
    JSXElement(Box<JSXElement>),
    Invalid(Invalid),
}

impl Expr {
    pub fn is_arrow(&self) -> bool {
        matches!(self, Expr::Arrow(_))
    }
}

#[derive(Clone, Debug)]
pub struct Invalid {
    pub span: Span,
}

#[derive(Clone, Debug)]
pub struct ArrayLit {
    pub span: Span,
    pub elems: Vec<Option<ExprOrSpread>>,
}

#[derive(Clone, Debug)]
pub struct ExprOrSpread {
    pub spread: Option<Span>,
    pub expr: Box<Expr>,
}

#[derive(Clone, Debug)]
pub struct FnExpr {
    pub ident: Option<Ident>,
    pub function: Box<Function>,
}

#[derive(Clone, Copy, Debug, PartialEq, Eq)]
pub enum UnaryOp {
    Bang,
}

#[derive(Clone, Copy, Debug, PartialEq, Eq)]
pub enum BinaryOp {
    Add,
}

#[derive(Clone, Copy, Debug, PartialEq, Eq)]
pub enum AssignOp {
    Assign,
}

#[macro_export]
macro_rules! op {
    ("!") => {
        $crate::UnaryOp::Bang
    };
    ("+") => {
        $crate::BinaryOp::Add
    };
    ("=") => {
        $crate::AssignOp::Assign
    };
}

#[derive(Clone, Debug)]
pub struct UnaryExpr {
    pub span: Span,
    pub op: UnaryOp,
    pub arg: Box<Expr>,
}

#[derive(Clone, Debug)]
pub struct BinExpr {
    pub span: Span,
    pub op: BinaryOp,
    pub left: Box<Expr>,
    pub right: Box<Expr>,
}

#[derive(Clone, Debug)]
pub struct CondExpr {
    pub span: Span,
    pub test: Box<Expr>,
    pub cons: Box<Expr>,
    pub alt: Box<Expr>,
}

#[derive(Clone, Debug)]
pub struct AssignExpr {
    pub span: Span,
    pub op: AssignOp,
    pub left: AssignTarget,
    pub right: Box<Expr>,
}

#[derive(Clone, Debug)]
pub enum AssignTarget {
    Simple(SimpleAssignTarget),
}

#[derive(Clone, Debug)]
pub enum SimpleAssignTarget {
    Ident(BindingIdent),
    Member(MemberExpr),
}

#[derive(Clone, Debug)]
pub struct MemberExpr {
    pub span: Span,
    pub obj: Box<Expr>,
    pub prop: MemberProp,
}

#[derive(Clone, Debug)]
pub enum MemberProp {
    Ident(IdentName),
    /// `a[b]`; never made here.
    Computed(ComputedPropName),
}

#[derive(Clone, Debug)]
pub struct ComputedPropName {
    pub span: Span,
    pub expr: Box<Expr>,
}

#[derive(Clone, Debug, Default)]
pub struct CallExpr {
    pub span: Span,
    pub ctxt: SyntaxContext,
    pub callee: Callee,
    pub args: Vec<ExprOrSpread>,
}

#[derive(Clone, Debug)]
pub enum Callee {
    Super(Super),
    Import(Import),
    Expr(Box<Expr>),
}

impl Default for Callee {
    fn default() -> Self {
        Callee::Super(Super::default())
    }
}

#[derive(Clone, Debug, Default)]
pub struct Super {
    pub span: Span,
}

#[derive(Clone, Debug, Default)]
pub struct Import {
    pub span: Span,
}

#[derive(Clone, Debug)]
pub struct ArrowExpr {
    pub span: Span,
    pub ctxt: SyntaxContext,
    pub params: Vec<Pat>,
    pub body: Box<BlockStmtOrExpr>,
    pub is_async: bool,
    pub is_generator: bool,
}

#[derive(Clone, Debug)]
pub enum BlockStmtOrExpr {
    BlockStmt(BlockStmt),
    Expr(Box<Expr>),
}

#[derive(Clone, Debug)]
pub struct TaggedTpl {
    pub span: Span,
    pub ctxt: SyntaxContext,
    pub tag: Box<Expr>,
    pub tpl: Box<Tpl>,
}

#[derive(Clone, Debug)]
pub struct Tpl {
    pub span: Span,
    pub exprs: Vec<Box<Expr>>,
    pub quasis: Vec<TplElement>,
}

#[derive(Clone, Debug)]
pub struct TplElement {
    pub span: Span,
    pub tail: bool,
    pub raw: Atom,
}

// Literals

#[derive(Clone, Debug)]
pub enum Lit {
    Str(Str),
    Bool(Bool),
    Num(Number),
}

#[derive(Clone, Debug)]
pub struct Str {
    pub span: Span,
    pub value: Atom,
    pub raw: Option<Atom>,
}

#[derive(Clone, Debug)]
pub struct Bool {
    pub span: Span,
    pub value: bool,
}

#[derive(Clone, Debug)]
pub struct Number {
    pub span: Span,
    pub value: f64,
    pub raw: Option<Atom>,
}

// JSX

#[derive(Clone, Debug)]
pub struct JSXElement {
    pub span: Span,
    pub opening: JSXOpeningElement,
    pub children: Vec<JSXElementChild>,
    pub closing: Option<JSXClosingElement>,
}

#[derive(Clone, Debug)]
pub struct JSXOpeningElement {
    pub name: JSXElementName,
    pub span: Span,
    pub attrs: Vec<JSXAttrOrSpread>,
    pub self_closing: bool,
}

#[derive(Clone, Debug)]
pub struct JSXClosingElement {
    pub span: Span,
    pub name: JSXElementName,
}

#[derive(Clone, Debug)]
pub enum JSXElementName {
    Ident(Ident),
    JSXMemberExpr(JSXMemberExpr),
}

#[derive(Clone, Debug)]
pub struct JSXMemberExpr {
    pub span: Span,
    pub obj: JSXObject,
    pub prop: IdentName,
}

#[derive(Clone, Debug)]
pub enum JSXObject {
    JSXMemberExpr(Box<JSXMemberExpr>),
    Ident(Ident),
}

#[derive(Clone, Debug)]
pub enum JSXAttrOrSpread {
    JSXAttr(JSXAttr),
}

#[derive(Clone, Debug)]
pub struct JSXAttr {
    pub span: Span,
    pub name: JSXAttrName,
    pub value: Option<JSXAttrValue>,
}

#[derive(Clone, Debug)]
pub enum JSXAttrName {
    Ident(IdentName),
}

#[derive(Clone, Debug)]
pub enum JSXAttrValue {
    JSXExprContainer(JSXExprContainer),
}

#[derive(Clone, Debug)]
pub enum JSXElementChild {
    JSXExprContainer(JSXExprContainer),
    JSXElement(Box<JSXElement>),
}

#[derive(Clone, Debug)]
pub struct JSXExprContainer {
    pub span: Span,
    pub expr: JSXExpr,
}

#[derive(Clone, Debug)]
pub enum JSXExpr {
    Expr(Box<Expr>),
}

// Spans

macro_rules! own_span {
    ($($t:ident)*) => {
        $(impl Spanned for $t {
            fn span(&self) -> Span {
                self.span
            }
        })*
    };
}

own_span! {
    Ident IdentName Module ImportDecl ImportNamedSpecifier ImportDefaultSpecifier ExportDecl
    ExportDefaultDecl ExportDefaultExpr TsModuleDecl BlockStmt ReturnStmt IfStmt ExprStmt VarDecl
    VarDeclarator Function Param ArrayPat AssignPat Invalid ArrayLit UnaryExpr BinExpr CondExpr
    AssignExpr MemberExpr ComputedPropName CallExpr Super Import ArrowExpr TaggedTpl Tpl TplElement
    Str Bool Number JSXElement JSXOpeningElement JSXClosingElement JSXMemberExpr JSXAttr
    JSXExprContainer
}

macro_rules! span_of_case {
    ($($t:ident: $($case:ident)*;)*) => {
        $(impl Spanned for $t {
            fn span(&self) -> Span {
                match self {
                    $($t::$case(n) => n.span(),)*
                }
            }
        })*
    };
}

span_of_case! {
    ModuleItem: ModuleDecl Stmt;
    ModuleDecl: Import ExportDecl ExportDefaultDecl ExportDefaultExpr;
    DefaultDecl: Fn;
    Stmt: Block Return If Decl Expr;
    Decl: Fn Var TsModule;
    Pat: Ident Array Assign;
    Expr: Array Fn Unary Bin Assign Member Cond Call Ident Lit TaggedTpl Arrow JSXElement Invalid;
    AssignTarget: Simple;
    SimpleAssignTarget: Ident Member;
    MemberProp: Ident Computed;
    Callee: Super Import Expr;
    BlockStmtOrExpr: BlockStmt Expr;
    Lit: Str Bool Num;
    JSXElementName: Ident JSXMemberExpr;
    JSXObject: JSXMemberExpr Ident;
}

impl Spanned for BindingIdent {
    fn span(&self) -> Span {
        self.id.span
    }
}

impl Spanned for FnDecl {
    fn span(&self) -> Span {
        self.function.span
    }
}

impl Spanned for FnExpr {
    fn span(&self) -> Span {
        self.function.span
    }
}

impl Spanned for ExprOrSpread {
    fn span(&self) -> Span {
        match self.spread {
            Some(spread) => self.expr.span().with_lo(spread.lo),
            None => self.expr.span(),
        }
    }
}

// Taking

impl Take for Expr {
    fn dummy() -> Self {
        Expr::Invalid(Invalid { span: DUMMY_SP })
    }
}

// Conversions

impl From<IdentName> for Ident {
    fn from(name: IdentName) -> Self {
        Ident::new(name.sym, name.span, SyntaxContext::empty())
    }
}

impl From<&BindingIdent> for Ident {
    fn from(binding: &BindingIdent) -> Self {
        binding.id.clone()
    }
}

impl From<Ident> for BindingIdent {
    fn from(id: Ident) -> Self {
        BindingIdent { id }
    }
}

impl From<Ident> for Pat {
    fn from(id: Ident) -> Self {
        Pat::Ident(id.into())
    }
}

impl From<Ident> for AssignTarget {
    fn from(id: Ident) -> Self {
        AssignTarget::Simple(SimpleAssignTarget::Ident(id.into()))
    }
}

macro_rules! into_expr {
    ($($t:ty, $n:ident => $e:expr;)*) => {
        $(
            impl From<$t> for Expr {
                fn from($n: $t) -> Self {
                    $e
                }
            }

            impl From<$t> for Box<Expr> {
                fn from(n: $t) -> Self {
                    Box::new(Expr::from(n))
                }
            }
        )*
    };
}

into_expr! {
    Ident, n => Expr::Ident(n);
    IdentName, n => Expr::Ident(n.into());
    Lit, n => Expr::Lit(n);
    Str, n => Expr::Lit(Lit::Str(n));
    bool, n => Expr::Lit(Lit::Bool(Bool { span: DUMMY_SP, value: n }));
    CallExpr, n => Expr::Call(n);
    AssignExpr, n => Expr::Assign(n);
    MemberExpr, n => Expr::Member(n);
    Function, n => Expr::Fn(FnExpr { ident: None, function: Box::new(n) });
    FnExpr, n => Expr::Fn(n);
    ArrowExpr, n => Expr::Arrow(n);
}

impl From<Box<Expr>> for Expr {
    fn from(e: Box<Expr>) -> Self {
        *e
    }
}

impl From<ExprStmt> for Stmt {
    fn from(n: ExprStmt) -> Self {
        Stmt::Expr(n)
    }
}

impl From<VarDecl> for Stmt {
    fn from(n: VarDecl) -> Self {
        Stmt::Decl(Decl::Var(Box::new(n)))
    }
}

impl From<Stmt> for ModuleItem {
    fn from(n: Stmt) -> Self {
        ModuleItem::Stmt(n)
    }
}

impl From<ExprStmt> for ModuleItem {
    fn from(n: ExprStmt) -> Self {
        ModuleItem::Stmt(n.into())
    }
}

impl From<VarDecl> for ModuleItem {
    fn from(n: VarDecl) -> Self {
        ModuleItem::Stmt(n.into())
    }
}

impl From<ExportDefaultExpr> for ModuleItem {
    fn from(n: ExportDefaultExpr) -> Self {
        ModuleItem::ModuleDecl(ModuleDecl::ExportDefaultExpr(n))
    }
}
