//! From a tree to the text form.

use case::quote;

use crate::tree::{Kind, Node};

pub fn print(module: &Node) -> Vec<u8> {
    let mut out = Vec::new();
    start(module, &mut out);
    out.extend_from_slice(b")\n");
    for item in &module.parts {
        form(item, &mut out);
        out.push(b'\n');
    }
    out
}

fn start(node: &Node, out: &mut Vec<u8>) {
    out.extend_from_slice(format!("({} {} {}", node.kind.word(), node.lo, node.hi).as_bytes());
}

fn form(node: &Node, out: &mut Vec<u8>) {
    start(node, out);
    match node.kind {
        Kind::Var | Kind::Bool | Kind::Prop => word(&node.text, out),
        Kind::Id | Kind::Hand => {
            word(&node.text, out);
            word(node.number.to_string().as_bytes(), out);
        }
        Kind::Block => word(node.number.to_string().as_bytes(), out),
        Kind::Fn | Kind::Deffn if !node.named => word(b"-", out),
        Kind::Str => {
            out.push(b' ');
            quote(&node.text, out);
        }
        _ => {}
    }
    for part in &node.parts {
        out.push(b' ');
        form(part, out);
    }
    out.push(b')');
}

fn word(word: &[u8], out: &mut Vec<u8>) {
    out.push(b' ');
    out.extend_from_slice(word);
}
