//! Modules of ordinary component code: the source, and its form beside it.

/// A part written to the source, with its form.
struct Part {
    form: String,
    nodes: usize,
}

/// Writes source and forms together, so that spans are right.
struct Writer {
    source: String,
    /// The scope of the function being written; names of the module have 1.
    scope: usize,
}

/// What follows the span in a form: words as they are, parts from the source.
enum Piece {
    Word(String),
    Form(Part),
}

impl Writer {
    fn at(&self) -> usize {
        self.source.len() + 1
    }

    fn put(&mut self, text: &str) {
        self.source.push_str(text);
    }

    fn form(&self, kind: &str, lo: usize, pieces: Vec<Piece>) -> Part {
        let mut form = format!("({kind} {lo} {}", self.at());
        let mut nodes = 1;
        for piece in pieces {
            form.push(' ');
            match piece {
                Piece::Word(word) => form.push_str(&word),
                Piece::Form(part) => {
                    form.push_str(&part.form);
                    nodes += part.nodes;
                }
            }
        }
        form.push(')');
        Part { form, nodes }
    }

    fn id(&mut self, name: &str, scope: usize) -> Piece {
        let lo = self.at();
        self.put(name);
        let words = vec![Piece::Word(name.into()), Piece::Word(scope.to_string())];
        Piece::Form(self.form("id", lo, words))
    }

    fn lit(&mut self, text: &str) -> Piece {
        let lo = self.at();
        self.put(text);
        Piece::Form(self.form("lit", lo, Vec::new()))
    }

    fn list(
        &mut self,
        between: &str,
        each: &mut dyn FnMut(&mut Writer, usize) -> Option<Piece>,
    ) -> Vec<Piece> {
        let mut pieces = Vec::new();
        let mut i = 0;
        loop {
            let before = self.source.len();
            if i > 0 {
                self.put(between);
            }
            match each(self, i) {
                Some(piece) => pieces.push(piece),
                None => {
                    self.source.truncate(before);
                    return pieces;
                }
            }
            i += 1;
        }
    }

    /// `name(arguments)`
    fn call(
        &mut self,
        name: &str,
        scope: usize,
        arguments: &mut dyn FnMut(&mut Writer, usize) -> Option<Piece>,
    ) -> Piece {
        let lo = self.at();
        let mut pieces = vec![self.id(name, scope)];
        self.put("(");
        pieces.extend(self.list(", ", arguments));
        self.put(")");
        Piece::Form(self.form("call", lo, pieces))
    }

    /// `object.name`
    fn member(&mut self, object: &str, scope: usize, name: &str) -> Piece {
        let lo = self.at();
        let object = self.id(object, scope);
        self.put(".");
        let start = self.at();
        self.put(name);
        let prop = self.form("prop", start, vec![Piece::Word(name.into())]);
        Piece::Form(self.form("member", lo, vec![object, Piece::Form(prop)]))
    }

    /// `const pattern = value;`
    fn declare(&mut self, pattern: &[&str], value: &mut dyn FnMut(&mut Writer) -> Piece) -> Piece {
        let lo = self.at();
        self.put("const ");
        let start = self.at();
        let scope = self.scope;
        let left = if let [name] = pattern {
            self.id(name, scope)
        } else {
            let from = self.at();
            self.put("[");
            let names = self.list(", ", &mut |w, i| Some(w.id(pattern.get(i)?, scope)));
            self.put("]");
            Piece::Form(self.form("pat", from, names))
        };
        self.put(" = ");
        let value = value(self);
        let decl = self.form("decl", start, vec![left, value]);
        self.put(";");
        Piece::Form(self.form("var", lo, vec![Piece::Word("const".into()), Piece::Form(decl)]))
    }

    /// An expression as a statement.
    fn statement(&mut self, value: &mut dyn FnMut(&mut Writer) -> Piece) -> Piece {
        let lo = self.at();
        let value = value(self);
        self.put(";");
        Piece::Form(self.form("expr", lo, vec![value]))
    }

    /// `<Name attribute={value}>children</Name>`
    fn jsx(
        &mut self,
        name: &str,
        scope: usize,
        attributes: &[(&str, &str)],
        child: Option<(&str, &str)>,
    ) -> Piece {
        let lo = self.at();
        let own = self.scope;
        self.put("<");
        let mut pieces = vec![self.id(name, scope)];
        for (attribute, value) in attributes {
            self.put(" ");
            let start = self.at();
            self.put(&format!("{attribute}={{"));
            let value = self.id(value, own);
            self.put("}");
            pieces.push(Piece::Form(self.form("attr", start, vec![value])));
        }
        self.put(">");
        if let Some((object, prop)) = child {
            self.put("{");
            pieces.push(self.member(object, own, prop));
            self.put("}");
        }
        self.put(&format!("</{name}>"));
        Piece::Form(self.form("jsx", lo, pieces))
    }

    fn block(
        &mut self,
        scope: usize,
        statements: &mut dyn FnMut(&mut Writer, usize) -> Option<Piece>,
    ) -> Piece {
        let lo = self.at();
        self.put("{\n");
        let mut pieces = vec![Piece::Word(scope.to_string())];
        pieces.extend(self.list("\n", statements));
        self.put("\n}");
        Piece::Form(self.form("block", lo, pieces))
    }

    fn give(&mut self, value: &mut dyn FnMut(&mut Writer) -> Piece) -> Piece {
        let lo = self.at();
        self.put("return ");
        let value = value(self);
        self.put(";");
        Piece::Form(self.form("return", lo, vec![value]))
    }

    // Items

    /// A component with state, an effect, a callback and a custom hook.
    fn screen(&mut self, i: usize) -> Part {
        let lo = self.at();
        let own = 10 + i;
        self.scope = own;
        self.put("function ");
        let name = self.id(&format!("Screen{i}"), 1);
        self.put("(");
        let props = self.id("props", own);
        self.put(") ");
        let body = self.block(own, &mut |w, i| {
            Some(match i {
                0 => w.declare(&["open", "setOpen"], &mut |w| {
                    w.call("useState", 1, &mut |w, i| (i < 1).then(|| w.lit("false")))
                }),
                1 => w.declare(&["page", "turn"], &mut |w| {
                    w.call("useReducer", 1, &mut |w, i| match i {
                        0 => Some(w.id("reducer", 1)),
                        1 => Some(w.lit("0")),
                        _ => None,
                    })
                }),
                2 => w.declare(&["bale"], &mut |w| {
                    w.call("useBale", 1, &mut |w, i| (i < 1).then(|| w.member("props", own, "id")))
                }),
                3 => w.statement(&mut |w| {
                    w.call("useEffect", 1, &mut |w, i| match i {
                        0 => {
                            let lo = w.at();
                            w.put("() => ");
                            let body = w.block(own + 1000, &mut |w, i| {
                                (i < 1).then(|| {
                                    w.statement(&mut |w| {
                                        w.call("watch", 1, &mut |w, i| {
                                            (i < 1).then(|| w.id("bale", own))
                                        })
                                    })
                                })
                            });
                            Some(Piece::Form(w.form("arrow", lo, vec![body])))
                        }
                        1 => {
                            let lo = w.at();
                            w.put("[");
                            let inside = w.id("bale", own);
                            w.put("]");
                            Some(Piece::Form(w.form("array", lo, vec![inside])))
                        }
                        _ => None,
                    })
                }),
                4 => w.declare(&["label"], &mut |w| {
                    let lo = w.at();
                    let test = w.id("open", own);
                    w.put(" ? ");
                    let yes = w.member("bale", own, "name");
                    w.put(" : ");
                    let no = w.lit("''");
                    Piece::Form(w.form("op", lo, vec![test, yes, no]))
                }),
                5 => {
                    let lo = w.at();
                    w.put("if (");
                    let test = w.member("props", own, "hidden");
                    w.put(") ");
                    let then = w.give(&mut |w| w.lit("null"));
                    Piece::Form(w.form("if", lo, vec![test, then]))
                }
                6 => w.statement(&mut |w| {
                    w.call("log", 1, &mut |w, i| match i {
                        0 => Some(w.id("label", own)),
                        1 => Some(w.member("props", own, "id")),
                        2 => Some(w.id("page", own)),
                        _ => None,
                    })
                }),
                7 => w.give(&mut |w| {
                    let attributes = [
                        ("title", "label"),
                        ("page", "page"),
                        ("onTurn", "turn"),
                        ("onOpen", "setOpen"),
                    ];
                    w.jsx("Panel", 1, &attributes, Some(("props", "children")))
                }),
                _ => return None,
            })
        });
        self.form("func", lo, vec![name, props, body])
    }

    /// A component without hooks.
    fn row(&mut self, i: usize) -> Part {
        let lo = self.at();
        let own = 3000 + i;
        self.put("export ");
        let start = self.at();
        self.put("const ");
        let from = self.at();
        let name = self.id(&format!("Row{i}"), 1);
        self.put(" = ");
        let arrow = self.at();
        self.scope = own;
        let props = self.id("props", own);
        self.put(" => ");
        let body =
            self.jsx("Cell", 1, &[("value", "props"), ("row", "props")], Some(("props", "name")));
        let arrow = self.form("arrow", arrow, vec![props, body]);
        let decl = self.form("decl", from, vec![name, Piece::Form(arrow)]);
        self.put(";");
        let var = self.form("var", start, vec![Piece::Word("const".into()), Piece::Form(decl)]);
        self.form("export", lo, vec![Piece::Form(var)])
    }

    /// A function that is no component.
    fn helper(&mut self, i: usize) -> Part {
        let lo = self.at();
        let own = 6000 + i;
        self.scope = own;
        self.put("function ");
        let name = self.id(&format!("format{i}"), 1);
        self.put("(");
        let value = self.id("value", own);
        self.put(") ");
        let body = self.block(own, &mut |w, i| {
            Some(match i {
                0 => w.declare(&["size"], &mut |w| {
                    w.call("measure", 1, &mut |w, i| match i {
                        0 => Some(w.member("value", own, "name")),
                        1 => Some(w.lit("1")),
                        _ => None,
                    })
                }),
                1 => {
                    let lo = w.at();
                    w.put("if (");
                    let test = w.id("size", own);
                    w.put(") ");
                    let then = w.give(&mut |w| w.member("value", own, "name"));
                    Piece::Form(w.form("if", lo, vec![test, then]))
                }
                2 => w.statement(&mut |w| {
                    w.call("log", 1, &mut |w, i| match i {
                        0 => Some(w.member("value", own, "id")),
                        1 => Some(w.id("size", own)),
                        _ => None,
                    })
                }),
                3 => w.give(&mut |w| {
                    let lo = w.at();
                    w.put("[");
                    let parts = w.list(", ", &mut |w, i| match i {
                        0 => Some(w.id("value", own)),
                        1 => Some(w.id("size", own)),
                        2 => Some(w.lit("0")),
                        _ => None,
                    });
                    w.put("]");
                    Piece::Form(w.form("array", lo, parts))
                }),
                _ => return None,
            })
        });
        self.form("func", lo, vec![name, value, body])
    }

    /// `tell(1);`
    fn plain(&mut self) -> Part {
        let lo = self.at();
        self.scope = 1;
        let call = self.call("tell", 1, &mut |w, i| (i < 1).then(|| w.lit("1")));
        self.put(";");
        self.form("expr", lo, vec![call])
    }

    /// An import of no names.
    fn import(&mut self) -> Part {
        let lo = self.at();
        self.put("import 'a';");
        self.form("import", lo, Vec::new())
    }
}

/// A module of exactly so many nodes.
pub fn module(nodes: usize) -> (String, String) {
    let mut writer = Writer { source: String::new(), scope: 1 };
    let mut items = Vec::new();
    let mut count = 1;
    let mut add = |writer: &mut Writer, part: Part, count: &mut usize| {
        writer.put("\n");
        *count += part.nodes;
        items.push(part.form);
    };
    let mut i = 0;
    loop {
        // Tried on a copy first, for its size.
        let source = writer.source.len();
        let part = match i % 4 {
            0 => writer.screen(i),
            1 => writer.row(i),
            _ => writer.helper(i),
        };
        if count + part.nodes > nodes {
            writer.source.truncate(source);
            break;
        }
        add(&mut writer, part, &mut count);
        i += 1;
    }
    while count + 4 <= nodes {
        let part = writer.plain();
        add(&mut writer, part, &mut count);
    }
    while count < nodes {
        let part = writer.import();
        add(&mut writer, part, &mut count);
    }
    let mut form = format!("(module 1 {})\n", writer.source.len() + 1);
    for item in items {
        form.push_str(&item);
        form.push('\n');
    }
    (form, writer.source)
}
