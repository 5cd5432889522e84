//! The rules of the pass, as they are told.

use std::mem::take;

use case::{Note, Options};

use crate::{
    tree::{Kind, Node},
    wrong::{Rules, Wrong},
    Refusal,
};

/// The three steps that the published pass gets wrong, each to be put back for
/// telling which trees show it. The rules have none of them.
#[derive(Clone, Copy, Debug, Default, PartialEq, Eq)]
pub struct Faults {
    /// Trailing notes at hi aren't asked for.
    pub hi: bool,
    /// What an `attr` holds isn't searched for uses in JSX.
    pub attr: bool,
    /// An argument that got a signature call has no snippet.
    pub key: bool,
}

pub fn run(
    module: &mut Node,
    source: &[u8],
    notes: &[Note],
    options: &Options,
    rules: Rules,
) -> Result<(), Refusal> {
    let dev = options.dev || rules.wrong(Wrong::DevOffRuns);
    let given = options.given || rules.wrong(Wrong::NotGivenRuns);
    if !(dev && given) {
        return Ok(());
    }
    let mut pass = Pass {
        source,
        options,
        rules,
        reset: forced_reset(module, notes, rules),
        scopes: vec![1],
        handles: [0, 0],
        top: Vec::new(),
        too_large: false,
    };
    let result = pass.items(module);
    if pass.too_large || past(&result, options.nodes, rules) {
        return Err(Refusal { number: 4, place: 0 });
    }
    *module = result;
    Ok(())
}

/// Whether a result has more nodes or more text than the tables hold.
fn past(result: &Node, nodes: usize, rules: Rules) -> bool {
    let mut size = result.text_size();
    if rules.wrong(Wrong::TextHands) {
        result.each(&mut |node| size += if node.kind == Kind::Hand { 2 } else { 0 });
    }
    let most_nodes = nodes - usize::from(rules.wrong(Wrong::NodesBelow));
    let most = 6 * nodes - usize::from(rules.wrong(Wrong::TextBelow));
    result.nodes() > most_nodes || (size > most && !rules.wrong(Wrong::TextNotAtRun))
}

// Reset

pub fn forced_reset(module: &Node, notes: &[Note], rules: Rules) -> bool {
    const TEXT: &[u8] = b"@refresh reset";
    let asks = |side: u64, position: i64| {
        let mut there =
            notes.iter().filter(|note| note.side == side && note.position as i64 == position);
        let says = |note: &Note| match rules.wrong {
            Wrong::ResetBegins => note.text.starts_with(TEXT),
            _ => note.text.windows(TEXT.len()).any(|part| part == TEXT),
        };
        match rules.wrong {
            Wrong::ResetOneNote => there.next().is_some_and(says),
            _ => there.any(says),
        }
    };
    let mut forced = false;
    if !notes.is_empty() {
        module.each(&mut |node| {
            let (lo, hi) = (i64::from(node.lo), i64::from(node.hi));
            let silent = match rules.wrong {
                Wrong::ResetNotModule => node.kind == Kind::Module,
                Wrong::ResetStatements => !(node.is_statement() || node.is_item()),
                _ => false,
            };
            if forced || silent {
                return;
            }
            let before_hi = match rules.wrong {
                Wrong::ResetNotBeforeHi => false,
                Wrong::ResetNotEmpty if lo == hi => false,
                Wrong::ResetLeadingHi => asks(0, hi),
                Wrong::ResetTrailingBeforeHi => asks(0, hi - 1) || asks(1, hi - 1),
                _ => asks(0, hi - 1),
            };
            forced = before_hi
                || (asks(0, lo) && !rules.wrong(Wrong::ResetNotLeadingLo))
                || (asks(1, lo) && !rules.wrong(Wrong::ResetNotTrailingLo))
                || (asks(1, hi) && !rules.faults.hi && !rules.wrong(Wrong::ResetNotTrailingHi));
        });
    }
    forced
}

// JSX

/// Name and scope of each `id` used in JSX.
pub fn used_in_jsx(node: &Node, rules: Rules) -> Vec<(Vec<u8>, u32)> {
    let mut used = Vec::new();
    find_used(node, rules, &mut used);
    used
}

fn find_used(node: &Node, rules: Rules, used: &mut Vec<(Vec<u8>, u32)>) {
    if node.kind == Kind::Attr && (rules.faults.attr || rules.wrong(Wrong::UseNotAttr)) {
        return;
    }
    if node.kind == Kind::Jsx {
        let mut name = &node.parts[0];
        while name.kind == Kind::Member && rules.wrong(Wrong::UseMember) {
            name = &name.parts[0];
        }
        if name.kind == Kind::Id {
            used.push((name.text.clone(), name.number));
        }
    }
    if node.kind == Kind::Call && makes_element(node, rules) {
        let arguments = &node.parts[1..];
        let most = if rules.wrong(Wrong::UseAnyArgument) { arguments.len() } else { 1 };
        for argument in arguments.iter().take(most) {
            if argument.kind == Kind::Id {
                used.push((argument.text.clone(), argument.number));
            }
        }
    }
    for part in &node.parts {
        let child = node.kind == Kind::Jsx && part.kind != Kind::Attr;
        if !(child && rules.wrong(Wrong::UseNotChildren)) {
            find_used(part, rules, used);
        }
    }
}

fn makes_element(call: &Node, rules: Rules) -> bool {
    let makers: [&[u8]; 4] = [b"createElement", b"jsx", b"jsxs", b"jsxDEV"];
    let known = if rules.wrong(Wrong::UseNotDev) { 3 } else { 4 };
    let callee = &call.parts[0];
    if callee.kind == Kind::Member {
        let refused = match rules.wrong {
            Wrong::UseIdMaker => true,
            Wrong::UseReactMaker => callee.parts[0].text != b"React",
            _ => false,
        };
        if refused {
            return false;
        }
    }
    callee_name(call).is_some_and(|name| makers[..known].contains(&name))
}

/// The name of a call's callee, if that is an `id` or a `member`.
fn callee_name(call: &Node) -> Option<&[u8]> {
    let callee = &call.parts[0];
    match callee.kind {
        Kind::Id => Some(&callee.text),
        Kind::Member => Some(&callee.parts[1].text),
        _ => None,
    }
}

// Components

/// The `id` of the component that an item is, judged as loaded.
pub fn component<'a>(item: &'a Node, used: &[(Vec<u8>, u32)], rules: Rules) -> Option<&'a Node> {
    let exported = item.kind == Kind::Export;
    let declared = if exported { &item.parts[0] } else { item };
    let is_used = |id: &Node| {
        used.iter().any(|(name, scope)| {
            *name == id.text && (*scope == id.number || rules.wrong(Wrong::UseByName))
        })
    };
    let upper = |id: &Node| match rules.wrong {
        Wrong::UpperNotLower => !id.text[0].is_ascii_lowercase(),
        _ => begins_upper(id),
    };
    let function = |id: &Node| upper(id) || (rules.wrong(Wrong::FuncUsed) && is_used(id));
    match declared.kind {
        Kind::Func if exported && rules.wrong(Wrong::ExportFuncNot) => None,
        Kind::Var if exported && rules.wrong(Wrong::ExportVarNot) => None,
        Kind::Var if declared.text != b"const" && rules.wrong(Wrong::ConstOnly) => None,
        Kind::Func => Some(&declared.parts[0]).filter(|id| function(id)),
        Kind::Deffn if declared.named && !rules.wrong(Wrong::DeffnNot) => {
            Some(&declared.parts[0]).filter(|id| upper(id))
        }
        Kind::Var => {
            let (id, value) = plain(declared, rules)?;
            let kinds: &[Kind] = match rules.wrong {
                Wrong::IdTaken => &[Kind::Arrow, Kind::Fn, Kind::Tagged, Kind::Call, Kind::Id],
                Wrong::TaggedNot => &[Kind::Arrow, Kind::Fn, Kind::Call],
                _ => &[Kind::Arrow, Kind::Fn, Kind::Tagged, Kind::Call],
            };
            let by_use = is_used(id)
                && kinds.contains(&value.kind)
                && !is_import_or_require(value, rules)
                && (upper(id) || !rules.wrong(Wrong::UsedUpper));
            let by_name = upper(id)
                && match value.kind {
                    Kind::Fn => true,
                    Kind::Arrow => {
                        body(value).kind != Kind::Arrow || rules.wrong(Wrong::ArrowOfArrow)
                    }
                    _ => false,
                };
            (by_use || by_name).then_some(id)
        }
        _ => None,
    }
}

/// The `id` and the initialiser of a `var` of one declarator, if it has both.
fn plain(var: &Node, rules: Rules) -> Option<(&Node, &Node)> {
    let decls = match rules.wrong {
        Wrong::FirstOfMany => &var.parts[..1],
        _ => &var.parts[..],
    };
    match decls {
        [decl] => match &decl.parts[..] {
            [id, value] if id.kind == Kind::Id => Some((id, value)),
            _ => None,
        },
        _ => None,
    }
}

fn is_import_or_require(value: &Node, rules: Rules) -> bool {
    const NAME: &[u8] = b"require";
    let is = |name: &[u8]| match rules.wrong {
        Wrong::RequireExact => name == NAME,
        Wrong::RequirePrefix => name.starts_with(NAME),
        _ => name.windows(NAME.len()).any(|part| part == NAME),
    };
    value.kind == Kind::Call
        && match value.parts[0].kind {
            Kind::Kwimport => !rules.wrong(Wrong::ImportTaken),
            Kind::Id => is(&value.parts[0].text),
            Kind::Member => rules.wrong(Wrong::RequireMember) && is(&value.parts[0].parts[1].text),
            _ => false,
        }
}

fn begins_upper(id: &Node) -> bool {
    id.text[0].is_ascii_uppercase()
}

/// The body of a function: its last part.
fn body(function: &Node) -> &Node {
    &function.parts[function.parts.len() - 1]
}

/// Whether the published pass takes an item for a wrapped component, which the
/// rules don't have. `used` is what it finds used in JSX.
pub fn is_wrapper(item: &Node, used: &[(Vec<u8>, u32)]) -> bool {
    let declared = if item.kind == Kind::Export { &item.parts[0] } else { item };
    match declared.kind {
        Kind::Var => match plain(declared, Rules::default()) {
            Some((id, value)) => {
                component(item, used, Rules::default()).is_none()
                    && begins_upper(id)
                    && wraps(value)
            }
            None => false,
        },
        Kind::Defexpr => wraps(&declared.parts[0]),
        _ => false,
    }
}

fn wraps(value: &Node) -> bool {
    value.kind == Kind::Call
        && matches!(value.parts[0].kind, Kind::Id | Kind::Member)
        && match value.parts.get(1) {
            Some(argument) => match argument.kind {
                Kind::Fn | Kind::Arrow => true,
                Kind::Id => begins_upper(argument),
                Kind::Call => wraps(argument),
                _ => false,
            },
            None => false,
        }
}

// Hooks

struct Hook {
    /// The callee, an `id` or a `member`.
    callee: Node,
    key: Vec<u8>,
}

impl Hook {
    fn name(&self) -> &[u8] {
        match self.callee.kind {
            Kind::Id => &self.callee.text,
            _ => &self.callee.parts[1].text,
        }
    }

    /// The `id` of a custom hook.
    fn custom(&self, rules: Rules) -> Option<&Node> {
        let member = self.callee.kind == Kind::Member;
        if is_builtin(self.name(), rules) && !(member && rules.wrong(Wrong::BuiltinIdOnly)) {
            return None;
        }
        if !member {
            return Some(&self.callee);
        }
        let object = &self.callee.parts[0];
        let react = object.text == b"React"
            && match rules.wrong {
                Wrong::ReactCustom => false,
                Wrong::ReactTop => object.number == 1,
                _ => true,
            };
        (object.kind == Kind::Id && !react).then_some(object)
    }
}

fn is_hook_name(name: &[u8], rules: Rules) -> bool {
    name.starts_with(b"use")
        && match (rules.wrong, name.get(3)) {
            (Wrong::HookAnyUse, _) => true,
            (_, None) => false,
            (Wrong::HookNotLower, Some(byte)) => !byte.is_ascii_lowercase(),
            (_, Some(byte)) => byte.is_ascii_uppercase(),
        }
}

fn is_builtin(name: &[u8], rules: Rules) -> bool {
    let names: [&[u8]; 10] = [
        b"useState",
        b"useReducer",
        b"useEffect",
        b"useLayoutEffect",
        b"useMemo",
        b"useCallback",
        b"useRef",
        b"useContext",
        b"useImperativeHandle",
        b"useDebugValue",
    ];
    let known = if rules.wrong(Wrong::BuiltinNine) { 9 } else { 10 };
    names[..known].contains(&name)
}

struct Collector<'a> {
    source: &'a [u8],
    rules: Rules,
    hooks: Vec<Hook>,
    /// The bytes of names and keys, and how many there may be: past that the
    /// result is too large whatever else is in it, and collecting stops.
    size: usize,
    most: usize,
}

impl Collector<'_> {
    fn wrong(&self, wrong: Wrong) -> bool {
        self.rules.wrong(wrong)
    }

    fn snippet(&self, (lo, hi): (u32, u32)) -> &[u8] {
        if lo == 0 || hi < lo {
            return b"";
        }
        &self.source[lo as usize - 1..hi as usize - 1]
    }

    fn argument(&self, node: &Node) -> Vec<u8> {
        let as_it_stands = self.rules.faults.key || self.wrong(Wrong::KeySigned);
        let span = if as_it_stands { (node.lo, node.hi) } else { node.loaded };
        let snippet = self.snippet(span);
        if snippet.is_empty() && self.wrong(Wrong::KeyNoBrackets) {
            return Vec::new();
        }
        [b"(", snippet, b")"].concat()
    }

    /// Which argument a hook has in its key.
    fn keyed(&self, name: &[u8], arguments: usize) -> Option<usize> {
        match name {
            b"useState" if arguments >= 1 => Some(0),
            b"useReducer" if arguments >= 2 => match self.rules.wrong {
                Wrong::KeyReducerFirst => Some(0),
                Wrong::KeyReducerLast => Some(arguments - 1),
                _ => Some(1),
            },
            b"useReducer" if arguments == 1 && self.wrong(Wrong::KeyReducerOne) => Some(0),
            b"useReducer" => None,
            _ if arguments >= 1 && self.wrong(Wrong::KeyEveryHook) => Some(0),
            _ => None,
        }
    }

    /// Takes the hook, if the node is a hook call.
    fn take(&mut self, node: &Node, left: Option<(u32, u32)>) -> bool {
        if node.kind != Kind::Call {
            return false;
        }
        let callee = &node.parts[0];
        let member = callee.kind == Kind::Member;
        let no_callee = match self.rules.wrong {
            Wrong::HookIdOnly => member,
            Wrong::HookMemberOfId => member && callee.parts[0].kind != Kind::Id,
            _ => false,
        };
        let name = match callee_name(node) {
            Some(name) if is_hook_name(name, self.rules) && !no_callee => name,
            _ => return false,
        };
        if self.size > self.most {
            return true;
        }
        let mut key = Vec::new();
        if let Some(left) = left {
            if !self.wrong(Wrong::KeyNoLeft) {
                key.extend_from_slice(self.snippet(left));
            }
        }
        let arguments = &node.parts[1..];
        match self.keyed(name, arguments.len()) {
            Some(_) if member && self.wrong(Wrong::KeyIdOnly) => {}
            Some(i) => key.extend(self.argument(&arguments[i])),
            None if name == b"useState" && self.wrong(Wrong::KeyNoArgument) => key.extend(b"()"),
            None => {}
        }
        let hook = Hook { callee: callee.clone(), key };
        let again = self.hooks.iter().any(|h| h.name() == hook.name() && h.key == hook.key);
        if again && self.wrong(Wrong::HooksOnce) {
            return true;
        }
        self.size += name.len() + hook.key.len() + 2;
        self.hooks.push(hook);
        true
    }

    fn statement(&mut self, node: &Node) {
        match node.kind {
            Kind::Expr => {
                if self.wrong(Wrong::TakeExprInside) || !self.take(&node.parts[0], None) {
                    self.search_inside(node);
                }
            }
            Kind::Return => {
                if self.wrong(Wrong::TakeNoReturn) {
                    return;
                }
                let inside = node.parts.is_empty() || self.wrong(Wrong::TakeReturnInside);
                if inside || !self.take(&node.parts[0], None) {
                    self.search_inside(node);
                }
            }
            Kind::Var => self.var(node),
            Kind::Block => {
                // Not entered.
                if self.wrong(Wrong::SearchBlocks) {
                    for statement in &node.parts {
                        self.statement(statement);
                    }
                }
            }
            Kind::If if self.wrong(Wrong::IfSkipped) => self.search(&node.parts[0]),
            Kind::Func if self.wrong(Wrong::SearchNotFuncs) => {}
            _ => self.search_inside(node),
        }
    }

    fn var(&mut self, node: &Node) {
        if self.wrong(Wrong::HooksLoaded) && declares_handles(node) {
            return;
        }
        let mut searched = false;
        for decl in &node.parts {
            if decl.parts.len() < 2 && self.wrong(Wrong::VarNoValue) {
                continue;
            }
            let left = match self.rules.wrong {
                Wrong::KeyDeclarator => decl.loaded,
                _ => decl.parts[0].loaded,
            };
            if decl.parts.len() == 2 && self.wrong(Wrong::VarInside) {
                self.search_inside(&decl.parts[1]);
            }
            if decl.parts.len() == 2 && self.take(&decl.parts[1], Some(left)) {
                continue;
            }
            match self.rules.wrong {
                Wrong::VarOwnOnly => self.search(decl),
                Wrong::VarOnce if searched => {}
                _ => self.search_inside(node),
            }
            searched = true;
        }
    }

    fn search_inside(&mut self, node: &Node) {
        let last = node.parts.len().saturating_sub(1);
        let parts = match node.kind {
            Kind::Arrow if self.wrong(Wrong::SearchBodies) => &node.parts[..],
            Kind::Arrow if self.wrong(Wrong::SearchNotDefaults) => &[],
            Kind::Arrow => &node.parts[..last],
            Kind::Func | Kind::Fn if self.wrong(Wrong::SearchNotDefaults) => &[],
            Kind::Decl if self.wrong(Wrong::SearchNotPatterns) => &node.parts[1..],
            _ => &node.parts[..],
        };
        for part in parts {
            let plain = node.kind == Kind::If && self.wrong(Wrong::IfSearched);
            if plain && part.kind != Kind::Block {
                self.search_inside(part);
                self.take(part, None);
            } else {
                self.search(part);
            }
        }
    }

    fn search(&mut self, node: &Node) {
        if node.is_statement() {
            return self.statement(node);
        }
        if self.wrong(Wrong::SearchOuterFirst) {
            self.take(node, None);
        }
        self.search_inside(node);
        if !self.wrong(Wrong::SearchOuterFirst) {
            self.take(node, None);
        }
    }
}

// Going through

struct Pass<'a> {
    source: &'a [u8],
    options: &'a Options,
    rules: Rules,
    reset: bool,
    /// The top scope and those of the blocks around.
    scopes: Vec<u32>,
    /// The handles made: of both letters, in the first place.
    handles: [u32; 2],
    /// Handles that are no block's (only where a rule is misread).
    top: Vec<u32>,
    too_large: bool,
}

/// What the nearest block, or the module, gets from the functions inside it.
#[derive(Default)]
struct Nearest {
    /// To be declared at its start.
    handles: Vec<u32>,
    /// To stand after the statement being gone through.
    calls: Vec<Node>,
}

impl Pass<'_> {
    fn wrong(&self, wrong: Wrong) -> bool {
        self.rules.wrong(wrong)
    }

    fn items(&mut self, module: &Node) -> Node {
        let used = used_in_jsx(module, self.rules);
        let mut nearest = Nearest::default();
        let mut registrations: Vec<(u32, Vec<u8>)> = Vec::new();
        let mut items = Vec::new();
        for item in &module.parts {
            let component = component(item, &used, self.rules);
            if component.is_none() && self.wrong(Wrong::NumberWrapped) && might_wrap(item) {
                self.handle("_c");
            }
            let early = match component {
                Some(_) if self.wrong(Wrong::NumberFirst) => Some(self.handle("_c")),
                _ => None,
            };
            let mut item = item.clone();
            self.go_through(&mut item, &mut nearest);
            let at = items.len();
            self.put(item, &mut nearest, &mut items);
            if let Some(id) = component {
                let handle = early.unwrap_or_else(|| self.handle("_c"));
                let dummy = |wrong: bool| if wrong { (0, 0) } else { (id.lo, id.hi) };
                let (lo, hi) = dummy(self.wrong(Wrong::AssignIdDummy));
                let copy = Node { lo, hi, ..id.clone() };
                let (lo, hi) = dummy(self.wrong(Wrong::AssignDummy));
                let assign =
                    Node { lo, hi, ..Node::made(Kind::Assign, vec![hand("_c", handle), copy]) };
                let statement = Node::made(Kind::Expr, vec![assign]);
                if self.wrong(Wrong::AssignFirst) {
                    items.insert(at + 1, statement);
                } else {
                    items.push(statement);
                }
                registrations.push((handle, id.text.clone()));
            }
        }
        items.append(&mut nearest.calls);
        if !self.top.is_empty() {
            nearest.handles.append(&mut self.top);
            nearest.handles.sort();
        }
        if !nearest.handles.is_empty() {
            let at = match self.rules.wrong {
                Wrong::VarAfterImports => {
                    items.iter().take_while(|item| item.kind == Kind::Import).count()
                }
                _ => 0,
            };
            items.insert(at, self.declare(&nearest.handles));
        }
        if !registrations.is_empty() {
            let decls = registrations
                .iter()
                .map(|(handle, _)| Node::made(Kind::Decl, vec![hand("_c", *handle)]))
                .collect();
            if self.wrong(Wrong::RegisterVarFirst) {
                items.insert(0, var(decls));
            } else {
                items.push(var(decls));
            }
        }
        if self.wrong(Wrong::RegisterReversed) {
            registrations.reverse();
        }
        for (handle, name) in registrations {
            let name = Node { text: name, ..Node::made(Kind::Str, Vec::new()) };
            let parts = vec![made_id(&self.options.reg), hand("_c", handle), name];
            items.push(Node::made(Kind::Expr, vec![Node::made(Kind::Call, parts)]));
        }
        Node { parts: items, ..Node::new(Kind::Module, module.lo, module.hi) }
    }

    /// Writes down a statement gone through, and its signature statements.
    fn put(&self, statement: Node, nearest: &mut Nearest, statements: &mut Vec<Node>) {
        match self.rules.wrong {
            Wrong::CallsReversed => nearest.calls.reverse(),
            Wrong::CallsBefore => statements.append(&mut nearest.calls),
            _ => {}
        }
        statements.push(statement);
        if !self.wrong(Wrong::CallsAtEnd) {
            statements.append(&mut nearest.calls);
        }
    }

    fn handle(&mut self, letter: &str) -> u32 {
        let counter = match self.rules.wrong {
            Wrong::NumbersApart => &mut self.handles[usize::from(letter == "_c")],
            _ => &mut self.handles[0],
        };
        *counter += 1;
        *counter - 1
    }

    /// The `var` of handles, each with a call of the signature name.
    fn declare(&self, handles: &[u32]) -> Node {
        let decl = |&handle: &u32| {
            let call = Node::made(Kind::Call, vec![made_id(&self.options.sig)]);
            Node::made(Kind::Decl, vec![hand("_s", handle), call])
        };
        var(handles.iter().map(decl).collect())
    }

    /// From the inside out.
    fn go_through(&mut self, node: &mut Node, nearest: &mut Nearest) {
        match node.kind {
            Kind::Block => self.block(node),
            Kind::Func => {
                self.inside(node, nearest);
                let id = node.parts[0].clone();
                self.collect_named(node, id, nearest);
            }
            Kind::Deffn => {
                if !node.named && self.wrong(Wrong::UnnamedLeft) {
                    return;
                }
                self.inside(node, nearest);
                if node.named && !self.wrong(Wrong::NamedDeffnNot) {
                    let id = node.parts[0].clone();
                    self.collect_named(node, id, nearest);
                }
                if !node.named && self.wrong(Wrong::UnnamedCollects) {
                    if let Some((handle, _)) = self.collect(node) {
                        nearest.handles.push(handle);
                    }
                }
            }
            Kind::Decl if initialises_plain(node) && !self.wrong(Wrong::PlainReplaced) => {
                let id = node.parts[0].clone();
                let function = &mut node.parts[1];
                // Its parameters aren't gone through.
                if self.wrong(Wrong::PlainParameters) {
                    self.inside(function, nearest);
                } else {
                    self.body_of(function, nearest);
                }
                self.collect_named(function, id, nearest);
            }
            Kind::Assign if initialises_plain(node) && self.wrong(Wrong::AssignedByName) => {
                let id = node.parts[0].clone();
                let function = &mut node.parts[1];
                self.body_of(function, nearest);
                self.collect_named(function, id, nearest);
            }
            Kind::Fn if node.named && self.wrong(Wrong::FnByName) => {
                self.inside(node, nearest);
                let id = node.parts[0].clone();
                self.collect_named(node, id, nearest);
            }
            Kind::Fn | Kind::Arrow => {
                self.inside(node, nearest);
                if let Some((handle, hooks)) = self.collect(node) {
                    nearest.handles.push(handle);
                    let loaded = node.loaded;
                    let call = self.signature_call(handle, node.clone(), hooks);
                    *node = Node { loaded, ..call };
                }
            }
            _ => self.inside(node, nearest),
        }
    }

    fn inside(&mut self, node: &mut Node, nearest: &mut Nearest) {
        let last = node.parts.len().saturating_sub(1);
        let named = matches!(node.kind, Kind::Func | Kind::Deffn);
        let arrow = node.kind == Kind::Arrow;
        for (i, part) in node.parts.iter_mut().enumerate() {
            if i < last && named && self.rules.wrong(Wrong::FuncParameters) {
                continue;
            }
            self.part(part, i == last && arrow, nearest);
        }
    }

    fn body_of(&mut self, function: &mut Node, nearest: &mut Nearest) {
        let arrow = function.kind == Kind::Arrow;
        self.part(last(function), arrow, nearest);
    }

    fn part(&mut self, part: &mut Node, arrow_body: bool, nearest: &mut Nearest) {
        let made = arrow_body && part.kind != Kind::Block && self.wrong(Wrong::ScopeMade);
        if made {
            self.scopes.push(0);
        }
        self.go_through(part, nearest);
        if made {
            self.scopes.pop();
        }
    }

    fn block(&mut self, block: &mut Node) {
        self.scopes.push(block.number);
        let mut nearest = Nearest::default();
        let mut statements = Vec::new();
        for mut statement in take(&mut block.parts) {
            self.go_through(&mut statement, &mut nearest);
            self.put(statement, &mut nearest, &mut statements);
        }
        statements.append(&mut nearest.calls);
        if self.wrong(Wrong::HandlesAtTop) {
            self.top.append(&mut nearest.handles);
        }
        if !nearest.handles.is_empty() {
            statements.insert(0, self.declare(&nearest.handles));
        }
        block.parts = statements;
        self.scopes.pop();
    }

    /// A function that stays where it is: its signature call takes its `id`.
    fn collect_named(&mut self, function: &mut Node, id: Node, nearest: &mut Nearest) {
        if let Some((handle, hooks)) = self.collect(function) {
            nearest.handles.push(handle);
            let own = last(function).number;
            let call = self.signature_call_over(handle, id, hooks, own);
            nearest.calls.push(Node::made(Kind::Expr, vec![call]));
        }
    }

    /// A function's hooks, if it has any, with the handle it got for them.
    fn collect(&mut self, function: &mut Node) -> Option<(u32, Vec<Hook>)> {
        let mut collector = Collector {
            source: self.source,
            rules: self.rules,
            hooks: Vec::new(),
            size: 0,
            most: 6 * self.options.nodes,
        };
        if self.wrong(Wrong::SearchOwnDefaults) {
            for part in &function.parts[..function.parts.len() - 1] {
                collector.search(part);
            }
        }
        let body = last(function);
        if body.kind == Kind::Block {
            for statement in &body.parts {
                collector.statement(statement);
            }
        } else if !(self.wrong(Wrong::BodyTaken) && collector.take(body, None)) {
            collector.search(body);
        }
        if collector.size > collector.most {
            self.too_large = true;
        }
        let hooks = collector.hooks;
        if hooks.is_empty() {
            return None;
        }
        let handle = self.handle("_s");
        let call = Node::made(Kind::Call, vec![hand("_s", handle)]);
        let first = Node::made(Kind::Expr, vec![call]);
        if body.kind == Kind::Block {
            let declares = body.parts.first().is_some_and(declares_handles);
            let at = usize::from(declares && self.wrong(Wrong::FirstAfterVar));
            body.parts.insert(at, first);
        } else {
            let (lo, hi) = match self.rules.wrong {
                Wrong::MadeDummy => (0, 0),
                Wrong::MadeLoaded => body.loaded,
                _ => (body.lo, body.hi),
            };
            let value = body.clone();
            let last = Node { lo, hi, ..Node::made(Kind::Return, vec![value]) };
            *body = Node { lo, hi, ..Node::made(Kind::Block, vec![first, last]) };
        }
        Some((handle, hooks))
    }

    fn signature_call(&mut self, handle: u32, mut function: Node, hooks: Vec<Hook>) -> Node {
        let own = last(&mut function).number;
        self.signature_call_over(handle, function, hooks, own)
    }

    /// `own` is the scope of the function's own body.
    fn signature_call_over(
        &mut self,
        handle: u32,
        function: Node,
        hooks: Vec<Hook>,
        own: u32,
    ) -> Node {
        let mut signature = Vec::new();
        let mut reset = self.reset;
        let mut listed: Vec<Node> = Vec::new();
        let mut custom = false;
        for (i, hook) in hooks.iter().enumerate() {
            if i > 0 && !self.wrong(Wrong::HooksEnded) {
                signature.push(b'\n');
            }
            signature.extend_from_slice(hook.name());
            signature.push(b'{');
            signature.extend_from_slice(&hook.key);
            signature.push(b'}');
            if self.wrong(Wrong::HooksEnded) {
                signature.push(b'\n');
            }
            let Some(id) = hook.custom(self.rules) else {
                let over = hook.callee.parts.first().map_or(Kind::Id, |object| object.kind);
                if over != Kind::Id && self.wrong(Wrong::DeepResets) {
                    reset = true;
                }
                continue;
            };
            custom = true;
            let entry = match hook.callee.kind {
                Kind::Id => id.clone(),
                _ if self.wrong(Wrong::ListedMemberSpan) => hook.callee.clone(),
                _ => Node::made(Kind::Member, hook.callee.parts.clone()),
            };
            if !self.knows(id.number, own) {
                reset = true;
            } else if !(self.wrong(Wrong::ListedOnce)
                && listed.iter().any(|other| is_same(other, &entry)))
            {
                listed.push(entry);
            }
        }
        if self.wrong(Wrong::ResetCustomOnly) && !custom {
            reset = false;
        }
        if self.wrong(Wrong::ResetLasts) {
            self.reset = reset;
        }
        if reset && self.wrong(Wrong::ListedNotReset) {
            listed.clear();
        }
        let signature = Node { text: signature, ..Node::made(Kind::Str, Vec::new()) };
        let mut parts = vec![hand("_s", handle), function, signature];
        let told = match self.rules.wrong {
            Wrong::BoolTrueOnly => reset,
            Wrong::BoolAlways => true,
            _ => reset || !listed.is_empty(),
        };
        if told {
            let word = if reset { "true" } else { "false" };
            parts.push(Node { text: word.into(), ..Node::made(Kind::Bool, Vec::new()) });
        }
        if !listed.is_empty() {
            let array = Node::made(Kind::Array, listed);
            let answer = Node::made(Kind::Return, vec![array]);
            parts.push(Node::made(Kind::Fn, vec![Node::made(Kind::Block, vec![answer])]));
        }
        Node::made(Kind::Call, parts)
    }

    /// Whether a scope is the module's or that of a block around.
    fn knows(&self, scope: u32, own: u32) -> bool {
        match self.rules.wrong {
            Wrong::ScopeOwn if scope == own => true,
            Wrong::ScopeZeroKnown if scope == 0 => true,
            Wrong::ScopeZeroUnknown if scope == 0 => false,
            Wrong::ScopeNearest => scope == 1 || self.scopes.last() == Some(&scope),
            _ => self.scopes.contains(&scope),
        }
    }
}

/// Whether two listed hooks are of the same names and scope.
fn is_same(one: &Node, other: &Node) -> bool {
    one.kind == other.kind
        && one.text == other.text
        && one.number == other.number
        && one.parts.len() == other.parts.len()
        && one.parts.iter().zip(&other.parts).all(|(a, b)| is_same(a, b))
}

fn declares_handles(statement: &Node) -> bool {
    statement.kind == Kind::Var
        && statement.parts.first().is_some_and(|decl| decl.parts[0].kind == Kind::Hand)
}

/// Whether the published pass makes a handle for what might be a wrapper.
fn might_wrap(item: &Node) -> bool {
    let declared = if item.kind == Kind::Export { &item.parts[0] } else { item };
    match declared.kind {
        Kind::Var => plain(declared, Rules::default())
            .is_some_and(|(id, value)| begins_upper(id) && value.kind == Kind::Call),
        Kind::Defexpr => declared.parts[0].kind == Kind::Call,
        _ => false,
    }
}

/// Whether a declarator has a plain `id` and a function for it.
fn initialises_plain(decl: &Node) -> bool {
    decl.parts.len() == 2 && decl.parts[0].kind == Kind::Id && decl.parts[1].is_function()
}

fn last(function: &mut Node) -> &mut Node {
    function.parts.last_mut().expect("a body")
}

fn hand(letter: &str, number: u32) -> Node {
    Node { text: letter.into(), number, ..Node::made(Kind::Hand, Vec::new()) }
}

fn made_id(name: &str) -> Node {
    Node { text: name.into(), ..Node::made(Kind::Id, Vec::new()) }
}

fn var(decls: Vec<Node>) -> Node {
    Node { text: b"var".to_vec(), ..Node::made(Kind::Var, decls) }
}
