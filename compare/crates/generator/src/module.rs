//! Random modules, written straight in the text form.

use crate::random::Random;

const BUILTIN: &[&str] = &[
    "useState",
    "useState",
    "useState",
    "useReducer",
    "useReducer",
    "useEffect",
    "useLayoutEffect",
    "useMemo",
    "useCallback",
    "useRef",
    "useContext",
    "useImperativeHandle",
    "useDebugValue",
];
const CUSTOM: &[&str] = &["useA", "useB", "useThing", "useStateX", "useZ9", "useSig", "useReact"];
const NEARLY: &[&str] =
    &["use", "user", "use1", "use_A", "use$", "Use", "useless", "auseA", "_useA"];
const UPPER: &[&str] = &["Foo", "Bar", "A", "Z", "Foo2", "React", "F_"];
const LOWER: &[&str] =
    &["foo", "bar", "a", "z", "_A", "$A", "_s", "_c", "memo", "hand", "id", "str"];
const MAKERS: &[&str] = &["createElement", "jsx", "jsxs", "jsxDEV"];
const REQUIRES: &[&str] = &["require", "myrequire", "requireA", "Require", "requir", "Arequire9"];

/// How one module's contents are chosen.
pub struct Taste {
    /// Percentages of spans that are `0 0`, empty, and outside the parent's.
    dummy: usize,
    empty: usize,
    elsewhere: usize,
    /// The longest span of a leaf, or of one taken elsewhere.
    longest: usize,
    /// Percentage of calls that are hook calls.
    hooks: usize,
    /// Weights: id lit call member array op assign arrow fn tagged jsx.
    expressions: [usize; 11],
    /// Weights: expr var func return if block.
    statements: [usize; 6],
    /// Percentage of callees of hooks that are members.
    members: usize,
    /// Most parts in a list.
    wide: usize,
    /// Whether what the published pass takes for wrapped components is avoided,
    /// and what shows its faults.
    avoid: bool,
    /// The names that ids mostly have, and those of items and their uses.
    names: Vec<String>,
    declared: Vec<String>,
    /// How many brackets an item mostly has open at most.
    room: usize,
}

impl Taste {
    pub fn new(random: &mut Random, nodes: usize, source_length: usize) -> Taste {
        let style = random.below(6);
        let expressions = match style {
            // chains
            0 => [6, 4, 14, 12, 10, 12, 6, 14, 8, 4, 8],
            // functions
            1 => [14, 8, 20, 3, 3, 4, 3, 25, 18, 1, 3],
            // JSX
            2 => [16, 8, 18, 5, 3, 3, 2, 10, 5, 5, 25],
            // anything
            3 => [1; 11],
            _ => [20, 12, 30, 8, 4, 6, 4, 12, 8, 3, 6],
        };
        let statements = match random.below(4) {
            0 => [1; 6],
            1 => [10, 30, 20, 5, 5, 5],
            _ => [24, 26, 14, 12, 14, 10],
        };
        let mut names = Vec::new();
        for _ in 0..random.between(2, 9) {
            let pool = *random
                .pick(&[UPPER, UPPER, UPPER, LOWER, LOWER, CUSTOM, NEARLY, MAKERS, REQUIRES]);
            names.push(random.pick(pool).to_string());
        }
        if random.chance(4) {
            names.push(long_name(random, 64));
        }
        if random.chance(6) {
            names = vec![long_name(random, 64), long_name(random, 63)];
        }
        let mut declared = Vec::new();
        for _ in 0..random.between(1, 5) {
            let pool = *random.pick(&[UPPER, UPPER, UPPER, LOWER]);
            declared.push(random.pick(pool).to_string());
        }
        let no_dummies = random.chance(30);
        Taste {
            dummy: if no_dummies { 0 } else { *random.pick(&[2, 10, 30, 100]) },
            empty: *random.pick(&[0, 2, 20]),
            elsewhere: *random.pick(&[0, 10, 100]),
            longest: if nodes > 400 || source_length > 2000 {
                9
            } else {
                *random.pick(&[5, 20, 100_000])
            },
            hooks: *random.pick(&[5, 40, 70, 90]),
            expressions,
            statements,
            members: *random.pick(&[0, 20, 50]),
            wide: *random.pick(&[1, 2, 3, 3, 4, 8]),
            avoid: random.chance(60),
            names,
            declared,
            room: *random.pick(&[6, 7, 8, 10, 14, 20, 64]),
        }
    }
}

pub fn long_name(random: &mut Random, length: usize) -> String {
    let first = ["use", "Use", "Foo", "$$$"][random.below(4)];
    let mut name = first.to_string();
    while name.len() < length {
        name.push(*random.pick(&['A', 'z', '0', '_', '$']));
    }
    name
}

type Span = (usize, usize);

pub struct Writer<'a> {
    random: &'a mut Random,
    taste: Taste,
    pub out: String,
    pub nodes: usize,
    /// How many nodes it should be at most, about.
    most: usize,
    source_length: usize,
    /// The scopes of the blocks around.
    around: Vec<usize>,
    /// Every span written that is not `0 0`.
    pub spans: Vec<Span>,
}

impl<'a> Writer<'a> {
    pub fn new(
        random: &'a mut Random,
        taste: Taste,
        most: usize,
        source_length: usize,
    ) -> Writer<'a> {
        Writer {
            random,
            taste,
            out: String::new(),
            nodes: 0,
            most,
            source_length,
            around: Vec::new(),
            spans: Vec::new(),
        }
    }

    /// The whole module; no form has more than `room` brackets open.
    pub fn module(&mut self, room: usize) {
        let all = (1, self.source_length + 1);
        let span = self.open("module", all);
        self.close();
        self.out.push('\n');
        while self.nodes < self.most {
            let mostly = self.taste.room.min(room);
            let room = if self.random.chance(90) { mostly } else { room };
            let parent = if span == (0, 0) { all } else { span };
            match self.random.weighted(&[84, 12, 4]) {
                1 => self.declared_and_used(parent),
                2 => self.hooks_in_defaults(parent),
                _ => self.item(parent, room),
            }
            self.out.push('\n');
            if self.random.chance(2) {
                break;
            }
        }
    }

    fn full(&self) -> bool {
        self.nodes >= self.most
    }

    fn open(&mut self, kind: &str, parent: Span) -> Span {
        let leaf = matches!(kind, "id" | "lit" | "prop" | "kwimport");
        let span = if kind == "module" && self.random.chance(60) {
            parent
        } else {
            self.span(parent, leaf)
        };
        self.nodes += 1;
        self.out.push_str(&format!("({kind} {} {}", span.0, span.1));
        if span != (0, 0) {
            self.spans.push(span);
        }
        span
    }

    fn span(&mut self, parent: Span, leaf: bool) -> Span {
        if self.random.chance(self.taste.dummy) {
            return (0, 0);
        }
        let (mut low, mut high) = parent;
        if parent == (0, 0) || self.random.chance(self.taste.elsewhere) {
            (low, high) = (1, self.source_length + 1);
        } else if !leaf && self.taste.longest > 9 && self.random.chance(70) {
            // Nearly all of the parent's.
            let less = (high - low) / 4;
            let lo = low + self.random.between(0, less.min(3));
            return (lo, high - self.random.between(0, less.min(3)));
        }
        let lo = self.random.between(low, high);
        if self.random.chance(self.taste.empty) {
            return (lo, lo);
        }
        let high = high.min(lo + self.taste.longest);
        (lo, self.random.between(lo, high))
    }

    fn close(&mut self) {
        self.out.push(')');
    }

    fn part(&mut self) {
        self.out.push(' ');
    }

    fn word(&mut self, word: &str) {
        self.out.push(' ');
        self.out.push_str(word);
    }

    fn scope(&mut self) -> usize {
        match self.random.weighted(&[12, 45, 28, 12, 3]) {
            0 => 0,
            1 => 1,
            2 if !self.around.is_empty() => *self.random.pick(&self.around),
            4 => 65_535,
            _ => self.random.between(2, 7),
        }
    }

    fn count(&mut self) -> usize {
        if self.full() {
            0
        } else {
            self.random.between(0, self.taste.wide)
        }
    }

    // Names

    fn name(&mut self) -> String {
        if self.random.chance(85) {
            return self.random.pick(&self.taste.names).clone();
        }
        let pool = *self.random.pick(&[UPPER, LOWER, BUILTIN, CUSTOM, NEARLY, MAKERS, REQUIRES]);
        self.random.pick(pool).to_string()
    }

    fn declared_name(&mut self) -> String {
        if self.random.chance(70) {
            return self.random.pick(&self.taste.declared).clone();
        }
        self.name()
    }

    /// Of an item, or of a use of one.
    fn declared_id(&mut self, parent: Span) {
        let name = self.declared_name();
        if self.random.chance(30) {
            return self.id_named(&name, parent);
        }
        self.open("id", parent);
        self.word(&name);
        self.word("1");
        self.close();
    }

    fn hook_name(&mut self) -> String {
        let pool = match self.random.weighted(&[45, 45, 10]) {
            0 => BUILTIN,
            1 => CUSTOM,
            _ => NEARLY,
        };
        self.random.pick(pool).to_string()
    }

    fn id_named(&mut self, name: &str, parent: Span) {
        self.open("id", parent);
        self.word(name);
        let scope = self.scope();
        self.word(&scope.to_string());
        self.close();
    }

    fn id(&mut self, parent: Span) {
        let name = self.name();
        self.id_named(&name, parent);
    }

    fn prop(&mut self, name: &str, parent: Span) {
        self.open("prop", parent);
        self.word(name);
        self.close();
    }

    // Items. `room` is how many brackets may be open inside, this form's included.

    fn item(&mut self, parent: Span, room: usize) {
        if room > 4 && self.random.chance(20) {
            return self.func(parent, room);
        }
        match self.random.weighted(&[58, 7, 15, 10, 10]) {
            1 => {
                let span = self.open("import", parent);
                for _ in 0..self.count() {
                    self.part();
                    self.id(span);
                }
                self.close();
            }
            2 if room > 4 => {
                let span = self.open("export", parent);
                self.part();
                if self.random.chance(50) {
                    self.func(span, room - 1);
                } else {
                    self.item_var(span, room - 1);
                }
                self.close();
            }
            3 if room > 3 => self.function("deffn", parent, room),
            4 if room > 3 => {
                let span = self.open("defexpr", parent);
                self.part();
                if self.taste.avoid && self.random.chance(40) {
                    self.unwrapping_call(span, room - 1);
                } else if self.taste.avoid {
                    self.not_a_call(span, room - 1);
                } else {
                    self.expression(span, room - 1);
                }
                self.close();
            }
            _ if room > 4 && self.random.chance(45) => self.item_var(parent, room),
            _ => self.statement(parent, room),
        }
    }

    /// Two items, in either order: a `var` that may make a component, and what
    /// may be a use of it.
    fn declared_and_used(&mut self, parent: Span) {
        let name = self.random.pick(&self.taste.declared).clone();
        let use_first = self.random.chance(40);
        if use_first {
            self.use_of(&name, parent);
            self.out.push('\n');
        }
        let exported = self.random.chance(25);
        let span = if exported { self.open("export", parent) } else { parent };
        if exported {
            self.part();
        }
        let var = self.open("var", span);
        let word = *self.random.pick(&["var", "let", "const"]);
        self.word(word);
        self.part();
        let decl = self.open("decl", var);
        self.part();
        self.top_id(&name, decl);
        self.part();
        match self.random.weighted(&[3, 2, 2, 1, 1, 1, 1]) {
            0 => {
                let call = self.open("call", decl);
                self.part();
                let callee = *self.random.pick(REQUIRES);
                self.id_named(callee, call);
                self.part();
                self.lit(call);
                self.close();
            }
            1 => {
                let call = self.open("call", decl);
                self.part();
                let callee = self.open("member", call);
                self.part();
                self.id(callee);
                self.part();
                let prop = *self.random.pick(&["require", "myrequire", "make"]);
                self.prop(prop, callee);
                self.close();
                self.close();
            }
            2 => self.unwrapping_call(decl, 4),
            3 => self.id(decl),
            4 => self.tagged(decl, 3),
            5 => self.arrow(decl, 5),
            _ => self.lit(decl),
        }
        self.close();
        if self.random.chance(10) {
            self.part();
            let decl = self.open("decl", var);
            self.part();
            self.id(decl);
            self.close();
        }
        self.close();
        if exported {
            self.close();
        }
        if !use_first {
            self.out.push('\n');
            self.use_of(&name, parent);
        }
    }

    fn top_id(&mut self, name: &str, parent: Span) {
        self.open("id", parent);
        self.word(name);
        self.word("1");
        self.close();
    }

    /// An `expr` that uses a name in JSX, or nearly so.
    fn use_of(&mut self, name: &str, parent: Span) {
        let expr = self.open("expr", parent);
        self.part();
        match self.random.below(10) {
            0 => self.element(name, expr),
            1 => {
                // As a child.
                let jsx = self.open("jsx", expr);
                self.part();
                self.top_id("a", jsx);
                self.part();
                self.element(name, jsx);
                self.close();
            }
            2 => {
                // In an attribute.
                let jsx = self.open("jsx", expr);
                self.part();
                self.top_id("a", jsx);
                self.part();
                let attr = self.open("attr", jsx);
                self.part();
                self.element(name, attr);
                self.close();
                self.close();
            }
            3 => {
                // As the first part of a name.
                let jsx = self.open("jsx", expr);
                self.part();
                let member = self.open("member", jsx);
                self.part();
                self.top_id(name, member);
                self.part();
                self.prop("B", member);
                self.close();
                self.close();
            }
            4 => {
                // In any scope.
                let jsx = self.open("jsx", expr);
                self.part();
                self.id_named(name, jsx);
                self.close();
            }
            way => {
                let call = self.open("call", expr);
                self.part();
                let maker = match self.random.below(10) {
                    0..=2 => "jsxDEV",
                    9 => "create",
                    _ => *self.random.pick(MAKERS),
                };
                if way < 8 {
                    self.member_named(maker, call, 2);
                } else {
                    self.id_named(maker, call);
                }
                if self.random.chance(30) {
                    self.part();
                    self.lit(call);
                }
                self.part();
                self.top_id(name, call);
                self.close();
            }
        }
        self.close();
    }

    fn element(&mut self, name: &str, parent: Span) {
        let jsx = self.open("jsx", parent);
        self.part();
        self.top_id(name, jsx);
        self.close();
    }

    /// A function with hooks in a place that only some rule reaches: a default,
    /// or an argument that gets a signature call.
    fn hooks_in_defaults(&mut self, parent: Span) {
        let func = self.open("func", parent);
        self.part();
        self.declared_id(func);
        self.part();
        let block = self.open("block", func);
        self.word("2");
        self.part();
        match self.random.below(4) {
            0 => {
                // The parameters of a plain initialiser.
                let var = self.open("var", block);
                self.word("const");
                self.part();
                let decl = self.open("decl", var);
                self.part();
                self.id(decl);
                self.part();
                self.arrow_with_default(decl);
                self.close();
                self.close();
            }
            1 => {
                // An arrow whose body gets a signature call.
                let expr = self.open("expr", block);
                self.part();
                let arrow = self.open("arrow", expr);
                self.part();
                self.arrow_with_default(arrow);
                self.close();
                self.close();
            }
            _ => {
                let expr = self.open("expr", block);
                self.part();
                let call = self.open("call", expr);
                self.part();
                let name = *self.random.pick(&["useState", "useReducer"]);
                self.id_named(name, call);
                if name == "useReducer" {
                    self.part();
                    self.lit(call);
                }
                self.part();
                let arrow = self.open("arrow", call);
                self.part();
                self.hook_call(arrow);
                self.close();
                self.close();
                self.close();
            }
        }
        self.close();
        self.close();
    }

    /// `(a = …) => …`, the default a hook call or an arrow of one, the body with
    /// a hook or not.
    fn arrow_with_default(&mut self, parent: Span) {
        let arrow = self.open("arrow", parent);
        self.part();
        let default = self.open("dflt", arrow);
        self.part();
        self.id(default);
        self.part();
        if self.random.chance(50) {
            let inner = self.open("arrow", default);
            self.part();
            self.hook_call(inner);
            self.close();
        } else {
            self.hook_call(default);
        }
        self.close();
        self.part();
        if self.random.chance(50) {
            self.hook_call(arrow);
        } else {
            self.lit(arrow);
        }
        self.close();
    }

    fn hook_call(&mut self, parent: Span) {
        let call = self.open("call", parent);
        self.part();
        let name = *self.random.pick(&["useA", "useRef", "useState", "useThing"]);
        self.id_named(name, call);
        self.close();
    }

    /// A `var` as items have it: often one declarator with a plain `id`.
    fn item_var(&mut self, parent: Span, room: usize) {
        if self.random.chance(25) {
            return self.var(parent, room);
        }
        let span = self.open("var", parent);
        let word = *self.random.pick(&["var", "let", "const"]);
        self.word(word);
        self.part();
        let inner = self.open("decl", span);
        self.part();
        let start = self.out.len();
        self.declared_id(inner);
        let name = self.out[start..].split(' ').nth(3).unwrap_or("a").to_string();
        self.part();
        let upper = name.as_bytes()[0].is_ascii_uppercase();
        let room = room - 2;
        match self.random.weighted(&[35, 20, 15, 10, 20]) {
            0 => self.arrow(inner, room),
            1 => self.function("fn", inner, room),
            2 if self.taste.avoid && upper => self.unwrapping_call(inner, room),
            2 => self.call(inner, room),
            3 => self.tagged(inner, room),
            _ if self.taste.avoid && upper => self.not_a_call(inner, room),
            _ => self.expression(inner, room),
        }
        self.close();
        self.close();
    }

    /// A call that the published pass takes for no wrapped component.
    fn unwrapping_call(&mut self, parent: Span, room: usize) {
        let span = self.open("call", parent);
        self.part();
        self.callee(span, room - 1);
        for i in 0..self.count() {
            self.part();
            if i == 0 {
                self.leaf_argument(span);
            } else {
                self.expression(span, room - 1);
            }
        }
        self.close();
    }

    fn leaf_argument(&mut self, parent: Span) {
        if self.random.chance(50) {
            self.lit(parent);
        } else {
            let name = *self.random.pick(LOWER);
            self.id_named(name, parent);
        }
    }

    fn not_a_call(&mut self, parent: Span, room: usize) {
        match self.random.below(5) {
            0 => self.arrow(parent, room),
            1 => self.function("fn", parent, room),
            2 => self.tagged(parent, room),
            3 => self.id(parent),
            _ => self.jsx(parent, room),
        }
    }

    // Statements

    fn statement(&mut self, parent: Span, room: usize) {
        if room < 5 || self.full() {
            return self.small_statement(parent, room);
        }
        match self.random.weighted(&self.taste.statements.clone()) {
            0 => {
                let span = self.open("expr", parent);
                self.part();
                self.statement_expression(span, room - 1);
                self.close();
            }
            1 => self.var(parent, room),
            2 => self.func(parent, room),
            3 => {
                let span = self.open("return", parent);
                if self.random.chance(80) {
                    self.part();
                    self.statement_expression(span, room - 1);
                }
                self.close();
            }
            4 => {
                let span = self.open("if", parent);
                self.part();
                self.expression(span, room - 1);
                self.part();
                self.statement(span, room - 1);
                if self.random.chance(40) {
                    self.part();
                    self.statement(span, room - 1);
                }
                self.close();
            }
            _ => self.block(parent, room),
        }
    }

    fn small_statement(&mut self, parent: Span, room: usize) {
        if room > 1 && self.random.chance(50) {
            let span = self.open("expr", parent);
            self.part();
            self.small_expression(span, room - 1);
            self.close();
        } else if self.random.chance(50) {
            let span = self.open("return", parent);
            if room > 1 && self.random.chance(50) {
                self.part();
                self.small_expression(span, room - 1);
            }
            self.close();
        } else {
            self.block(parent, 1);
        }
    }

    /// Often a hook call.
    fn statement_expression(&mut self, parent: Span, room: usize) {
        if self.random.chance(65) {
            self.call(parent, room);
        } else {
            self.expression(parent, room);
        }
    }

    fn var(&mut self, parent: Span, room: usize) {
        let span = self.open("var", parent);
        let word = *self.random.pick(&["var", "let", "const"]);
        self.word(word);
        for _ in 0..self.count().max(1) {
            self.part();
            let inner = self.open("decl", span);
            self.part();
            if room > 5 && !self.full() && self.random.chance(20) {
                self.id(inner);
                self.part();
                if self.random.chance(60) {
                    self.arrow(inner, room - 2);
                } else {
                    self.function("fn", inner, room - 2);
                }
                self.close();
                continue;
            }
            self.pattern(inner, room - 2);
            if self.random.chance(85) {
                self.part();
                if self.random.chance(40) {
                    self.call(inner, room - 2);
                } else {
                    self.expression(inner, room - 2);
                }
            }
            self.close();
        }
        self.close();
    }

    fn func(&mut self, parent: Span, room: usize) {
        let span = self.open("func", parent);
        self.part();
        self.declared_id(span);
        self.patterns_and_block(span, room);
    }

    fn block(&mut self, parent: Span, room: usize) {
        let span = self.open("block", parent);
        let scope = match self.random.weighted(&[8, 8, 84]) {
            0 => 0,
            1 => 1,
            _ => self.random.between(2, 7),
        };
        self.word(&scope.to_string());
        if room > 1 {
            self.around.push(scope);
            let mut count = self.count();
            if count == 0 && !self.full() && self.random.chance(80) {
                count = 1;
            }
            for _ in 0..count {
                self.part();
                self.statement(span, room - 1);
            }
            self.around.pop();
        }
        self.close();
    }

    // Functions and patterns

    /// `fn` or `deffn`.
    fn function(&mut self, kind: &str, parent: Span, room: usize) {
        let span = self.open(kind, parent);
        if self.random.chance(45) {
            self.word("-");
        } else {
            self.part();
            self.declared_id(span);
        }
        self.patterns_and_block(span, room);
    }

    fn patterns_and_block(&mut self, span: Span, room: usize) {
        for _ in 0..self.count() {
            if self.random.chance(40) {
                self.part();
                self.pattern(span, room - 1);
            }
        }
        self.part();
        self.block(span, room - 1);
        self.close();
    }

    fn pattern(&mut self, parent: Span, room: usize) {
        if room < 3 || self.full() {
            return self.id(parent);
        }
        match self.random.weighted(&[65, 15, 20]) {
            0 => self.id(parent),
            1 => {
                let span = self.open("pat", parent);
                for _ in 0..self.count() {
                    self.part();
                    self.pattern(span, room - 1);
                }
                self.close();
            }
            _ => {
                let span = self.open("dflt", parent);
                self.part();
                self.pattern(span, room - 1);
                self.part();
                match self.random.weighted(&[60, 25, 15]) {
                    1 if room > 4 => self.call(span, room - 1),
                    2 if room > 4 => self.arrow(span, room - 1),
                    _ => self.expression(span, room - 1),
                }
                self.close();
            }
        }
    }

    fn arrow(&mut self, parent: Span, room: usize) {
        let span = self.open("arrow", parent);
        for _ in 0..self.count() {
            if self.random.chance(40) {
                self.part();
                self.pattern(span, room - 1);
            }
        }
        self.part();
        match self.random.weighted(&[42, 14, 34, 10]) {
            0 => self.block(span, room - 1),
            1 if room > 4 && !self.full() => self.call(span, room - 1),
            3 if room > 4 => self.arrow(span, room - 1),
            _ => self.expression(span, room - 1),
        }
        self.close();
    }

    // Expressions

    fn leaf(&mut self, parent: Span) {
        if self.random.chance(60) {
            self.id(parent);
        } else {
            self.lit(parent);
        }
    }

    /// A leaf, or a hook call of leaves.
    fn small_expression(&mut self, parent: Span, room: usize) {
        if room < 2 || !self.random.chance(self.taste.hooks) {
            return self.leaf(parent);
        }
        let span = self.open("call", parent);
        self.part();
        let name = self.hook_name();
        self.id_named(&name, span);
        for _ in 0..self.count() {
            self.part();
            self.leaf(span);
        }
        self.close();
    }

    fn lit(&mut self, parent: Span) {
        self.open("lit", parent);
        self.close();
    }

    fn expressions(&mut self, span: Span, room: usize) {
        for _ in 0..self.count() {
            self.part();
            self.expression(span, room);
        }
    }

    fn expression(&mut self, parent: Span, room: usize) {
        if room < 4 || self.full() {
            return self.small_expression(parent, room);
        }
        match self.random.weighted(&self.taste.expressions.clone()) {
            0 => self.id(parent),
            1 => self.lit(parent),
            2 => self.call(parent, room),
            3 => self.member(parent, room),
            4 => {
                let span = self.open("array", parent);
                self.expressions(span, room - 1);
                self.close();
            }
            5 => {
                let span = self.open("op", parent);
                for _ in 0..self.random.between(1, 3) {
                    self.part();
                    self.expression(span, room - 1);
                }
                self.close();
            }
            6 => {
                let span = self.open("assign", parent);
                self.part();
                if self.random.chance(50) {
                    self.id(span);
                } else {
                    self.member(span, room - 1);
                }
                self.part();
                self.expression(span, room - 1);
                self.close();
            }
            7 => self.arrow(parent, room),
            8 => self.function("fn", parent, room),
            9 => self.tagged(parent, room),
            _ => self.jsx(parent, room),
        }
    }

    fn member(&mut self, parent: Span, room: usize) {
        let span = self.open("member", parent);
        self.part();
        self.expression(span, room - 1);
        self.part();
        let name = self.name();
        self.prop(&name, span);
        self.close();
    }

    fn member_named(&mut self, name: &str, parent: Span, room: usize) {
        let span = self.open("member", parent);
        self.part();
        match self.random.weighted(&[35, 45, 20]) {
            0 => self.id_named("React", span),
            1 => self.id(span),
            _ => self.expression(span, room - 1),
        }
        self.part();
        self.prop(name, span);
        self.close();
    }

    fn tagged(&mut self, parent: Span, room: usize) {
        let span = self.open("tagged", parent);
        self.part();
        self.expression(span, room - 1);
        self.expressions(span, room - 1);
        self.close();
    }

    /// Any callee but a hook.
    fn callee(&mut self, parent: Span, room: usize) {
        match self.random.weighted(&[40, 15, 15, 10, 20]) {
            0 => self.id(parent),
            1 => {
                let name = *self.random.pick(REQUIRES);
                self.id_named(name, parent)
            }
            2 => {
                self.open("kwimport", parent);
                self.close();
            }
            3 if room > 2 => {
                let name = if self.random.chance(60) { self.name() } else { "require".to_string() };
                self.member_named(&name, parent, room)
            }
            _ => self.expression(parent, room),
        }
    }

    fn call(&mut self, parent: Span, room: usize) {
        if room < 4 {
            return self.small_expression(parent, room);
        }
        let span = self.open("call", parent);
        self.part();
        if self.random.chance(self.taste.hooks) {
            let name = self.hook_name();
            if self.random.chance(self.taste.members) {
                self.member_named(&name, span, room - 1);
            } else {
                self.id_named(&name, span);
            }
            let keyed = name == "useState" || name == "useReducer";
            for _ in 0..self.count() {
                self.part();
                if keyed && self.taste.avoid {
                    self.leaf(span);
                } else if keyed && self.random.chance(30) {
                    self.arrow(span, room - 1);
                } else {
                    self.expression(span, room - 1);
                }
            }
        } else if self.random.chance(30) {
            let name = *self.random.pick(MAKERS);
            if self.random.chance(50) {
                self.id_named(name, span);
            } else {
                self.member_named(name, span, room - 1);
            }
            if self.random.chance(80) {
                self.part();
                self.declared_id(span);
            } else if self.random.chance(70) {
                self.part();
                self.lit(span);
            }
            if self.random.chance(30) {
                self.part();
                self.declared_id(span);
            }
            self.expressions(span, room - 1);
        } else {
            self.callee(span, room - 1);
            self.expressions(span, room - 1);
        }
        self.close();
    }

    fn jsx(&mut self, parent: Span, room: usize) {
        let span = self.open("jsx", parent);
        self.part();
        self.jsx_name(span, room - 1);
        for _ in 0..self.count() {
            if self.random.chance(50) {
                self.part();
                let inner = self.open("attr", span);
                self.part();
                self.expression(inner, room - 2);
                self.close();
            }
        }
        self.expressions(span, room - 1);
        self.close();
    }

    fn jsx_name(&mut self, parent: Span, room: usize) {
        if room < 2 || self.random.chance(75) {
            return self.declared_id(parent);
        }
        let span = self.open("member", parent);
        self.part();
        self.jsx_name(span, room - 1);
        self.part();
        let name = self.name();
        self.prop(&name, span);
        self.close();
    }
}
