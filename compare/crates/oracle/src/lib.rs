//! The published refresh pass as an oracle: a module in the text form becomes
//! swc's tree, the pass is run on it, and the tree is printed again.

mod build;
mod print;

use std::rc::Rc;

use case::{Note, Options};
use published::{refresh_pass, RefreshOptions};
use swc_common::{
    comments::{Comment, CommentKind, Comments, SingleThreadedComments},
    with_new_globals, BytePos, Mark, SourceMap, Span,
};
use swc_ecma_ast::Module;
use swc_ecma_visit::VisitMutWith;

use build::{module, Scopes};

/// The printed module, handles numbered as made (in the order of their marks;
/// those that the pass made and threw away are not counted). `Err` if the form
/// isn't one that can be loaded.
pub fn instrument(
    form: &str,
    source: &str,
    notes: &[Note],
    options: &Options,
) -> Result<String, String> {
    in_steps(form, source, notes, options, &mut || ())
}

/// As `instrument`; `step` is called after the tree is built and after the pass.
pub fn in_steps(
    form: &str,
    source: &str,
    notes: &[Note],
    options: &Options,
    step: &mut dyn FnMut(),
) -> Result<String, String> {
    with_new_globals(|| {
        let mut scopes = Scopes::new();
        let mut tree: Module = module(form, source.len(), &mut scopes)?;
        step();
        run(&mut tree, source, notes, options, scopes.top_mark());
        step();
        Ok(print::module(&tree, &scopes))
    })
}

/// Reads and prints, with no pass between. `Err` exactly if the form isn't
/// lawful over a source of that length, the depth of nesting aside.
pub fn read_and_print(form: &str, source_length: usize) -> Result<String, String> {
    with_new_globals(|| {
        let mut scopes = Scopes::new();
        let tree = module(form, source_length, &mut scopes)?;
        Ok(print::module(&tree, &scopes))
    })
}

fn run(tree: &mut Module, source: &str, notes: &[Note], options: &Options, top: Mark) {
    let store = SingleThreadedComments::default();
    for note in notes {
        let pos = BytePos(note.position as u32);
        let comment = Comment {
            kind: CommentKind::Block,
            span: Span::new(pos, pos),
            text: Rc::from(String::from_utf8_lossy(&note.text).as_ref()),
        };
        match note.side {
            0 => store.add_leading(pos, comment),
            _ => store.add_trailing(pos, comment),
        }
    }
    let given = options.given.then(|| RefreshOptions {
        refresh_reg: options.reg.clone(),
        refresh_sig: options.sig.clone(),
        emit_full_signatures: options.full,
    });
    let source = Rc::new(SourceMap::new(source.to_string()));
    let comments = (!notes.is_empty()).then_some(store);
    tree.visit_mut_with(&mut refresh_pass(options.dev, given, source, comments, top));
}

#[cfg(test)]
mod tests;
