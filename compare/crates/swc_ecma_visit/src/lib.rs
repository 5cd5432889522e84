//! Stand-in for swc_ecma_visit: visitors whose default bodies go through the
//! fields in their order, every span among them.

use swc_common::Span;
use swc_ecma_ast::*;

pub trait VisitWith<V: ?Sized + Visit> {
    fn visit_with(&self, v: &mut V);
    fn visit_children_with(&self, v: &mut V);
}

pub trait VisitMutWith<V: ?Sized + VisitMut> {
    fn visit_mut_with(&mut self, v: &mut V);
    fn visit_mut_children_with(&mut self, v: &mut V);
}

macro_rules! through_box_and_option {
    ($with:ident, $visit:ident, $one:ident, $children:ident, $as:ident $(, $m:ident)?) => {
        impl<V: ?Sized + $visit, T: ?Sized + $with<V>> $with<V> for Box<T> {
            fn $one(& $($m)? self, v: &mut V) {
                (**self).$one(v)
            }

            fn $children(& $($m)? self, v: &mut V) {
                (**self).$children(v)
            }
        }

        impl<V: ?Sized + $visit, T: $with<V>> $with<V> for Option<T> {
            fn $one(& $($m)? self, v: &mut V) {
                if let Some(n) = self.$as() {
                    n.$one(v)
                }
            }

            fn $children(& $($m)? self, v: &mut V) {
                if let Some(n) = self.$as() {
                    n.$children(v)
                }
            }
        }
    };
}

through_box_and_option!(VisitWith, Visit, visit_with, visit_children_with, as_ref);
through_box_and_option!(
    VisitMutWith,
    VisitMut,
    visit_mut_with,
    visit_mut_children_with,
    as_mut,
    mut
);

macro_rules! visitors {
    (
        structs { $($s:ident $sv:ident $sm:ident [$($field:ident)*])* }
        enums { $($e:ident $ev:ident $em:ident [$($case:ident)*])* }
        lists { $($l:ty, $lv:ident $lm:ident;)* }
    ) => {
        pub trait Visit {
            fn visit_span(&mut self, _: &Span) {}
            $(fn $sv(&mut self, n: &$s) { n.visit_children_with(self) })*
            $(fn $ev(&mut self, n: &$e) { n.visit_children_with(self) })*
            $(fn $lv(&mut self, n: &Vec<$l>) { n.visit_children_with(self) })*
        }

        pub trait VisitMut {
            fn visit_mut_span(&mut self, _: &mut Span) {}
            $(fn $sm(&mut self, n: &mut $s) { n.visit_mut_children_with(self) })*
            $(fn $em(&mut self, n: &mut $e) { n.visit_mut_children_with(self) })*
            $(fn $lm(&mut self, n: &mut Vec<$l>) { n.visit_mut_children_with(self) })*
        }

        impl<V: VisitMut> VisitMut for Folder<V> {
            fn visit_mut_span(&mut self, n: &mut Span) { self.0.visit_mut_span(n) }
            $(fn $sm(&mut self, n: &mut $s) { self.0.$sm(n) })*
            $(fn $em(&mut self, n: &mut $e) { self.0.$em(n) })*
            $(fn $lm(&mut self, n: &mut Vec<$l>) { self.0.$lm(n) })*
        }

        $(
            impl<V: ?Sized + Visit> VisitWith<V> for $s {
                fn visit_with(&self, v: &mut V) { v.$sv(self) }
                #[allow(unused_variables)]
                fn visit_children_with(&self, v: &mut V) {
                    $(self.$field.visit_with(v);)*
                }
            }

            impl<V: ?Sized + VisitMut> VisitMutWith<V> for $s {
                fn visit_mut_with(&mut self, v: &mut V) { v.$sm(self) }
                #[allow(unused_variables)]
                fn visit_mut_children_with(&mut self, v: &mut V) {
                    $(self.$field.visit_mut_with(v);)*
                }
            }
        )*

        $(
            impl<V: ?Sized + Visit> VisitWith<V> for $e {
                fn visit_with(&self, v: &mut V) { v.$ev(self) }
                fn visit_children_with(&self, v: &mut V) {
                    match self {
                        $($e::$case(n) => n.visit_with(v),)*
                    }
                }
            }

            impl<V: ?Sized + VisitMut> VisitMutWith<V> for $e {
                fn visit_mut_with(&mut self, v: &mut V) { v.$em(self) }
                fn visit_mut_children_with(&mut self, v: &mut V) {
                    match self {
                        $($e::$case(n) => n.visit_mut_with(v),)*
                    }
                }
            }
        )*

        $(
            impl<V: ?Sized + Visit> VisitWith<V> for Vec<$l> {
                fn visit_with(&self, v: &mut V) { v.$lv(self) }
                fn visit_children_with(&self, v: &mut V) {
                    for n in self {
                        n.visit_with(v)
                    }
                }
            }

            impl<V: ?Sized + VisitMut> VisitMutWith<V> for Vec<$l> {
                fn visit_mut_with(&mut self, v: &mut V) { v.$lm(self) }
                fn visit_mut_children_with(&mut self, v: &mut V) {
                    for n in self {
                        n.visit_mut_with(v)
                    }
                }
            }
        )*
    };
}

impl<V: ?Sized + Visit> VisitWith<V> for Span {
    fn visit_with(&self, v: &mut V) {
        v.visit_span(self)
    }

    fn visit_children_with(&self, _: &mut V) {}
}

impl<V: ?Sized + VisitMut> VisitMutWith<V> for Span {
    fn visit_mut_with(&mut self, v: &mut V) {
        v.visit_mut_span(self)
    }

    fn visit_mut_children_with(&mut self, _: &mut V) {}
}

visitors! {
    structs {
        Ident visit_ident visit_mut_ident [span]
        IdentName visit_ident_name visit_mut_ident_name [span]
        BindingIdent visit_binding_ident visit_mut_binding_ident [id]
        Module visit_module visit_mut_module [span body]
        Script visit_script visit_mut_script [span body]
        ImportDecl visit_import_decl visit_mut_import_decl [span specifiers src]
        ImportNamedSpecifier visit_import_named_specifier visit_mut_import_named_specifier
            [span local]
        ImportDefaultSpecifier visit_import_default_specifier visit_mut_import_default_specifier
            [span local]
        ExportDecl visit_export_decl visit_mut_export_decl [span decl]
        ExportDefaultDecl visit_export_default_decl visit_mut_export_default_decl [span decl]
        ExportDefaultExpr visit_export_default_expr visit_mut_export_default_expr [span expr]
        TsModuleDecl visit_ts_module_decl visit_mut_ts_module_decl [span]
        BlockStmt visit_block_stmt visit_mut_block_stmt [span stmts]
        ReturnStmt visit_return_stmt visit_mut_return_stmt [span arg]
        IfStmt visit_if_stmt visit_mut_if_stmt [span test cons alt]
        ExprStmt visit_expr_stmt visit_mut_expr_stmt [span expr]
        FnDecl visit_fn_decl visit_mut_fn_decl [ident function]
        VarDecl visit_var_decl visit_mut_var_decl [span decls]
        VarDeclarator visit_var_declarator visit_mut_var_declarator [span name init]
        Function visit_function visit_mut_function [params span body]
        Param visit_param visit_mut_param [span pat]
        ArrayPat visit_array_pat visit_mut_array_pat [span elems]
        AssignPat visit_assign_pat visit_mut_assign_pat [span left right]
        Invalid visit_invalid visit_mut_invalid [span]
        ArrayLit visit_array_lit visit_mut_array_lit [span elems]
        ExprOrSpread visit_expr_or_spread visit_mut_expr_or_spread [spread expr]
        FnExpr visit_fn_expr visit_mut_fn_expr [ident function]
        UnaryExpr visit_unary_expr visit_mut_unary_expr [span arg]
        BinExpr visit_bin_expr visit_mut_bin_expr [span left right]
        CondExpr visit_cond_expr visit_mut_cond_expr [span test cons alt]
        AssignExpr visit_assign_expr visit_mut_assign_expr [span left right]
        MemberExpr visit_member_expr visit_mut_member_expr [span obj prop]
        ComputedPropName visit_computed_prop_name visit_mut_computed_prop_name [span expr]
        CallExpr visit_call_expr visit_mut_call_expr [span callee args]
        Super visit_super visit_mut_super [span]
        Import visit_import visit_mut_import [span]
        ArrowExpr visit_arrow_expr visit_mut_arrow_expr [span params body]
        TaggedTpl visit_tagged_tpl visit_mut_tagged_tpl [span tag tpl]
        Tpl visit_tpl visit_mut_tpl [span exprs quasis]
        TplElement visit_tpl_element visit_mut_tpl_element [span]
        Str visit_str visit_mut_str [span]
        Bool visit_bool visit_mut_bool [span]
        Number visit_number visit_mut_number [span]
        JSXElement visit_jsx_element visit_mut_jsx_element [span opening children closing]
        JSXOpeningElement visit_jsx_opening_element visit_mut_jsx_opening_element [name span attrs]
        JSXClosingElement visit_jsx_closing_element visit_mut_jsx_closing_element [span name]
        JSXMemberExpr visit_jsx_member_expr visit_mut_jsx_member_expr [span obj prop]
        JSXAttr visit_jsx_attr visit_mut_jsx_attr [span name value]
        JSXExprContainer visit_jsx_expr_container visit_mut_jsx_expr_container [span expr]
    }
    enums {
        ModuleItem visit_module_item visit_mut_module_item [ModuleDecl Stmt]
        ModuleDecl visit_module_decl visit_mut_module_decl
            [Import ExportDecl ExportDefaultDecl ExportDefaultExpr]
        ImportSpecifier visit_import_specifier visit_mut_import_specifier [Named Default]
        DefaultDecl visit_default_decl visit_mut_default_decl [Fn]
        Stmt visit_stmt visit_mut_stmt [Block Return If Decl Expr]
        Decl visit_decl visit_mut_decl [Fn Var TsModule]
        Pat visit_pat visit_mut_pat [Ident Array Assign]
        Expr visit_expr visit_mut_expr
            [Array Fn Unary Bin Assign Member Cond Call Ident Lit TaggedTpl Arrow JSXElement Invalid]
        AssignTarget visit_assign_target visit_mut_assign_target [Simple]
        SimpleAssignTarget visit_simple_assign_target visit_mut_simple_assign_target [Ident Member]
        MemberProp visit_member_prop visit_mut_member_prop [Ident Computed]
        Callee visit_callee visit_mut_callee [Super Import Expr]
        BlockStmtOrExpr visit_block_stmt_or_expr visit_mut_block_stmt_or_expr [BlockStmt Expr]
        Lit visit_lit visit_mut_lit [Str Bool Num]
        JSXElementName visit_jsx_element_name visit_mut_jsx_element_name [Ident JSXMemberExpr]
        JSXObject visit_jsx_object visit_mut_jsx_object [JSXMemberExpr Ident]
        JSXAttrOrSpread visit_jsx_attr_or_spread visit_mut_jsx_attr_or_spread [JSXAttr]
        JSXAttrName visit_jsx_attr_name visit_mut_jsx_attr_name [Ident]
        JSXAttrValue visit_jsx_attr_value visit_mut_jsx_attr_value [JSXExprContainer]
        JSXElementChild visit_jsx_element_child visit_mut_jsx_element_child
            [JSXExprContainer JSXElement]
        JSXExpr visit_jsx_expr visit_mut_jsx_expr [Expr]
    }
    lists {
        ModuleItem, visit_module_items visit_mut_module_items;
        ImportSpecifier, visit_import_specifiers visit_mut_import_specifiers;
        Stmt, visit_stmts visit_mut_stmts;
        VarDeclarator, visit_var_declarators visit_mut_var_declarators;
        Param, visit_params visit_mut_params;
        Pat, visit_pats visit_mut_pats;
        Option<Pat>, visit_opt_vec_pats visit_mut_opt_vec_pats;
        ExprOrSpread, visit_expr_or_spreads visit_mut_expr_or_spreads;
        Option<ExprOrSpread>, visit_opt_vec_expr_or_spreads visit_mut_opt_vec_expr_or_spreads;
        Box<Expr>, visit_exprs visit_mut_exprs;
        TplElement, visit_tpl_elements visit_mut_tpl_elements;
        JSXAttrOrSpread, visit_jsx_attr_or_spreads visit_mut_jsx_attr_or_spreads;
        JSXElementChild, visit_jsx_element_children visit_mut_jsx_element_children;
    }
}

/// The folding interface, as far as it is used: a module in, a module out.
pub trait Fold {
    fn fold_module(&mut self, n: Module) -> Module;
}

pub struct Folder<V>(V);

impl<V: VisitMut> Fold for Folder<V> {
    fn fold_module(&mut self, mut n: Module) -> Module {
        n.visit_mut_with(&mut self.0);
        n
    }
}

pub fn as_folder<V: VisitMut>(v: V) -> Folder<V> {
    Folder(v)
}

/// In swc these skip what belongs to types; there are no types here.
#[macro_export]
macro_rules! noop_visit_type {
    () => {};
}

#[macro_export]
macro_rules! noop_visit_mut_type {
    () => {};
}
