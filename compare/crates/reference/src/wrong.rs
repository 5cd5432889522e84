//! Misreadings of the rules, each of which the reference can be made to follow,
//! one at a time, to see that the comparison would show it.

use crate::rules::Faults;

/// How the rules are read: as they are unless something is said here.
#[derive(Clone, Copy, Debug, Default, PartialEq, Eq)]
pub struct Rules {
    pub faults: Faults,
    pub wrong: Wrong,
}

impl Rules {
    pub fn with_faults(faults: Faults) -> Rules {
        Rules { faults, ..Rules::default() }
    }

    pub fn wrong(&self, wrong: Wrong) -> bool {
        self.wrong == wrong
    }
}

/// Who can show that a rule is wrong.
#[derive(Clone, Copy, Debug, PartialEq, Eq)]
pub enum Judge {
    /// The published pass.
    Pass,
    /// The reference as it is: the published pass has the same fault, or knows
    /// no such refusal.
    Rules,
}

macro_rules! misreadings {
    ($($name:ident $judge:ident $words:literal,)*) => {
        #[derive(Clone, Copy, Debug, Default, PartialEq, Eq)]
        pub enum Wrong {
            #[default]
            None,
            $($name,)*
        }

        pub const ALL: &[(Wrong, Judge, &str)] = &[
            $((Wrong::$name, Judge::$judge, $words),)*
        ];
    };
}

misreadings! {
    // Reset
    ResetNotBeforeHi Pass "leading notes at hi − 1 aren't asked for",
    ResetNotLeadingLo Pass "leading notes at lo aren't asked for",
    ResetNotTrailingLo Pass "trailing notes at lo aren't asked for",
    ResetNotTrailingHi Rules "trailing notes at hi aren't asked for",
    ResetLeadingHi Pass "leading notes are asked for at hi, not at hi − 1",
    ResetTrailingBeforeHi Pass "trailing notes are asked for at hi − 1 too",
    ResetNotModule Pass "the span of `module` asks for nothing",
    ResetNotEmpty Pass "a span with lo = hi doesn't ask at hi − 1",
    ResetStatements Pass "only items and statements ask",
    ResetBegins Pass "a note must begin with `@refresh reset`",
    ResetOneNote Pass "of the notes at one side and position only the first counts",
    ResetCustomOnly Pass "a forced reset is told only beside a custom hook",
    // Use in JSX
    UseNotAttr Rules "what an `attr` holds isn't searched for uses",
    UseMember Pass "the first `id` of a JSX name that is a `member` is used",
    UseByName Pass "a use counts for the name in every scope",
    UseIdMaker Pass "`createElement` and the like count as an `id` only",
    UseReactMaker Pass "a `member` of that name counts only over `React`",
    UseAnyArgument Pass "every argument of `createElement` and the like is used",
    UseNotDev Pass "`jsxDEV` isn't among the four names",
    UseNotChildren Pass "children of a `jsx` aren't searched for uses",
    // Hook names and keys
    HookAnyUse Pass "a hook name begins with `use`, whatever follows",
    HookNotLower Pass "`use` may be followed by anything but a to z",
    HookIdOnly Pass "a `member` is no hook's callee",
    HookMemberOfId Pass "a `member` is a hook's callee only over an `id`",
    KeyReducerOne Pass "`useReducer` with one argument has it in its key",
    KeyReducerFirst Pass "`useReducer` has its first argument in its key",
    KeyReducerLast Pass "`useReducer` has its last argument in its key",
    KeyNoBrackets Pass "an argument with an empty snippet has no brackets in the key",
    KeyIdOnly Pass "a `member`'s key has no argument",
    KeyNoLeft Pass "a key has no left side",
    KeyDeclarator Pass "the left side's snippet is the declarator's",
    KeyNoArgument Pass "`useState` without an argument has `()` in its key",
    KeySigned Rules "an argument that got a signature call has no snippet",
    KeyEveryHook Pass "every hook has its first argument in its key",
    // Collection
    TakeExprInside Pass "an `expr` that is a hook call is searched inside too",
    TakeReturnInside Pass "a `return` of a hook call is searched inside too",
    TakeNoReturn Pass "a `return` isn't looked at",
    VarOwnOnly Pass "a declarator that is no hook call searches itself alone",
    VarOnce Pass "a `var` is searched once, however many declarators are no hook calls",
    VarNoValue Pass "a declarator without an initialiser doesn't search",
    VarInside Pass "an initialiser that is a hook call is searched inside too",
    SearchBlocks Pass "a search enters blocks",
    SearchBodies Pass "a search enters the expression bodies of arrows",
    SearchOuterFirst Pass "a search takes a hook call before those inside it",
    SearchNotDefaults Pass "parameters of inner functions aren't searched",
    SearchNotPatterns Pass "a declarator's pattern isn't searched",
    SearchNotFuncs Pass "an inner `func` isn't searched",
    SearchOwnDefaults Pass "the function's own parameters are searched",
    IfSearched Pass "a statement in an `if` is searched like an expression",
    IfSkipped Pass "the branches of an `if` aren't looked at",
    BodyTaken Pass "an expression body that is a hook call isn't searched inside",
    HooksOnce Pass "a hook with the same name and key is taken once",
    HooksEnded Pass "each hook of a signature is ended by a line feed",
    HooksLoaded Pass "the calls in a made `var` aren't seen, whatever the signature name",
    // Registering
    BuiltinNine Pass "`useDebugValue` isn't built in",
    BuiltinIdOnly Pass "a `member` is never built in",
    ReactCustom Pass "a `member` of `React` is custom",
    ReactTop Pass "only `React` of scope 1 is React",
    DeepResets Pass "a `member` of something else than an `id` resets",
    ScopeOwn Pass "a function's own body is a block around it",
    ScopeZeroKnown Pass "scope 0 is always known",
    ScopeZeroUnknown Pass "scope 0 is never known",
    ScopeNearest Pass "of the blocks around only the nearest counts",
    ScopeMade Pass "an expression body is a block of scope 0 around what is inside",
    ListedOnce Pass "a hook called twice is listed once",
    ListedMemberSpan Pass "a listed `member` keeps its span",
    ListedNotReset Pass "nothing is listed if the call resets",
    ResetLasts Pass "an unknown hook forces the reset of all later calls",
    BoolTrueOnly Pass "the `bool` stands only if it is true",
    BoolAlways Pass "the `bool` always stands",
    FirstAfterVar Pass "a block's `var` precedes `_s()`",
    VarAfterImports Pass "the module's `var` stands behind the first imports",
    HandlesAtTop Pass "every handle is declared by the module",
    MadeDummy Pass "block and `return` made for an expression body have span 0 0",
    MadeLoaded Pass "block and `return` have the expression's span as loaded",
    PlainReplaced Pass "the initialiser of a plain `id` is replaced like any function",
    PlainParameters Pass "the parameters of such an initialiser are gone through",
    FuncParameters Pass "the parameters of `func` and `deffn` aren't gone through",
    UnnamedCollects Pass "a `deffn` without name gets a handle",
    UnnamedLeft Pass "a `deffn` without name isn't gone through",
    NamedDeffnNot Pass "a named `deffn` doesn't collect",
    FnByName Pass "a named `fn` is signed by a statement with its name",
    AssignedByName Pass "a function assigned to an `id` is signed by a statement",
    CallsReversed Pass "of several signature statements the last made stands first",
    CallsAtEnd Pass "signature statements stand at the end of their block",
    CallsBefore Pass "a signature statement precedes its function's statement",
    NumbersApart Pass "`_s` and `_c` are numbered each on their own",
    NumberFirst Pass "an item's `_c` is numbered before its `_s`",
    NumberWrapped Pass "a call that might wrap uses up a number",
    // Components
    ExportFuncNot Pass "an exported `func` is no component",
    ExportVarNot Pass "an exported `var` is no component",
    DeffnNot Pass "a named `deffn` is no component",
    FuncUsed Pass "a `func` used in JSX is a component whatever its name",
    FirstOfMany Pass "of a `var` with several declarators the first is judged",
    ArrowOfArrow Pass "an arrow whose body is an arrow makes a component",
    UpperNotLower Pass "a name not beginning a to z begins like a component's",
    RequireExact Pass "only a call of `require` itself is left out",
    RequirePrefix Pass "only names that begin with `require` are left out",
    RequireMember Pass "a `member` named require is left out too",
    ImportTaken Pass "a call of `kwimport` makes a component",
    IdTaken Pass "an `id` as initialiser makes a component, if used in JSX",
    TaggedNot Pass "a `tagged` makes no component",
    UsedUpper Pass "a use in JSX counts only for names beginning A to Z",
    ConstOnly Pass "only a `const` makes a component",
    AssignDummy Pass "the assignment of a component has span 0 0",
    AssignIdDummy Pass "the `id` assigned has span 0 0",
    AssignFirst Pass "the assignment precedes the signature statements",
    RegisterReversed Pass "the last component is registered first",
    RegisterVarFirst Pass "the `var` of all `_c` stands before the items",
    // Runs
    DevOffRuns Pass "with `dev` off it runs all the same",
    NotGivenRuns Pass "without options it runs with those it has",
    // Refusals and limits
    Depth65 Rules "65 brackets may be open",
    NodesBelow Rules "a module has fewer than N nodes",
    TextBelow Rules "a text size is below 6 × N",
    TextHands Rules "the letters of handles count towards the text size",
    TextNotAtRun Rules "a run isn't refused for its text size",
    SizesFirst Rules "too many nodes are told before a wrong token",
    Nodes15 Rules "tables for 15 nodes are taken",
    Source65536 Rules "a source of 65,536 bytes is taken",
    Name65 Rules "a name may have 65 characters",
    NameDigit Rules "a name may begin with a digit",
    Scope65536 Rules "a scope may be 65,536",
    HiLength Rules "hi is at most the source's length",
    HiBelow Rules "hi may be below lo",
    LoZero Rules "lo 0 may have another hi",
    HiAtLo Rules "a wrong hi is told at lo",
    LeadingZeros Rules "a number may have leading zeros",
    DashUnlawful Rules "a lone `-` has unlawful bytes",
    UnlawfulAscii Rules "only bytes above 127 and below 33 are unlawful",
    PlaceBehind Rules "the place is that behind the token",
    AttrBehind Rules "an `attr` may follow a child",
    OpFour Rules "an `op` may have four parts",
    VarEmpty Rules "a `var` may have no declarator",
    ArrowPattern Rules "an arrow may end in a pattern",
    OptionsDev Rules "wrong options are refused only with `dev`",
    OptionsNotGiven Rules "wrong options are refused though not given",
    FullOff Rules "full signatures off is taken",
    Notes513 Rules "513 notes are taken",
    NoteBytes Rules "16,385 bytes of notes are taken",
    NoteZero Rules "a note at position 0 is taken",
    NotePast Rules "a note one past the last position is taken",
    NoteSide Rules "a side of 2 is trailing",
    NotePlace Rules "the place of a refused note is its number in order",
}
