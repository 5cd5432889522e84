use super::*;

const SOURCE: &str = "function Foo(){useState(0);}";
const FORM: &str = "\
(module 1 29)
(func 1 29 (id 10 13 Foo 1) (block 15 29 2 (expr 16 28 (call 16 27 (id 16 24 useState 3) (lit 25 26)))))
";
const PRINTED: &str = r#"(module 1 29)
(var 0 0 var (decl 0 0 (hand 0 0 _s 0) (call 0 0 (id 0 0 $RefreshSig$ 0))))
(func 1 29 (id 10 13 Foo 1) (block 15 29 2 (expr 0 0 (call 0 0 (hand 0 0 _s 0))) (expr 16 28 (call 16 27 (id 16 24 useState 3) (lit 25 26)))))
(expr 0 0 (call 0 0 (hand 0 0 _s 0) (id 10 13 Foo 1) (str 0 0 "useState{(0)}")))
(expr 0 0 (assign 10 13 (hand 0 0 _c 1) (id 10 13 Foo 1)))
(var 0 0 var (decl 0 0 (hand 0 0 _c 1)))
(expr 0 0 (call 0 0 (id 0 0 $RefreshReg$ 0) (hand 0 0 _c 1) (str 0 0 "Foo")))
"#;

#[test]
fn one_module_whole() {
    let options = Options::default();
    assert_eq!(instrument(FORM, SOURCE, &[], &options).unwrap(), PRINTED);
    assert_eq!(read_and_print(FORM, SOURCE.len()).unwrap(), FORM);
    let off = Options { dev: false, ..Options::default() };
    assert_eq!(instrument(FORM, SOURCE, &[], &off).unwrap(), FORM);
    let none = Options { given: false, ..Options::default() };
    assert_eq!(instrument(FORM, SOURCE, &[], &none).unwrap(), FORM);
}

#[test]
fn every_kind_is_printed_as_read() {
    let form = "\
(module 0 0)
(import 1 2)
(import 1 2 (id 1 2 a 1) (id 1 2 b 1))
(export 1 2 (func 1 2 (id 1 2 f 1) (id 0 0 p 9) (pat 1 1) (dflt 1 2 (pat 1 2 (id 1 2 q 3)) (lit 1 1)) (block 1 2 0)))
(export 1 2 (var 1 2 let (decl 1 2 (id 1 2 a 65535)) (decl 1 2 (pat 1 2) (array 1 2 (lit 1 2)))))
(deffn 1 2 (id 1 2 g 1) (id 1 2 h 2) (block 1 2 7 (return 1 2) (return 1 2 (array 1 2))))
(deffn 1 2 - (block 1 2 7))
(defexpr 1 2 (arrow 1 2 (id 1 2 a 2) (id 1 2 a 2)))
(expr 1 2 (call 1 2 (kwimport 1 2) (op 1 2 (lit 1 2)) (op 1 2 (lit 1 2) (lit 1 2)) (op 1 2 (lit 1 2) (lit 1 2) (lit 1 2))))
(var 1 2 const (decl 1 2 (id 1 2 a 1) (fn 1 2 - (block 1 2 5))) (decl 1 2 (id 1 2 a 1) (fn 1 2 (id 1 2 n 1) (id 1 2 m 1) (block 1 2 5))))
(if 1 2 (assign 1 2 (id 1 2 a 1) (lit 1 2)) (expr 1 2 (assign 1 2 (member 1 2 (lit 1 2) (prop 1 2 z)) (lit 1 2))))
(if 1 2 (tagged 1 2 (id 1 2 a 1)) (block 1 2 3) (expr 1 2 (tagged 1 2 (id 1 2 a 1) (lit 1 2) (lit 1 2))))
(expr 1 2 (jsx 1 2 (id 1 2 A 1)))
(expr 1 2 (jsx 1 2 (member 1 2 (member 1 2 (id 1 2 A 1) (prop 1 2 B)) (prop 1 2 C)) (attr 1 2 (lit 1 2)) (attr 1 2 (jsx 1 2 (id 1 2 A 1))) (lit 1 2) (jsx 1 2 (id 1 2 A 1) (lit 1 2))))
";
    assert_eq!(read_and_print(form, 1).unwrap(), form);
}

/// What a signature call says behind its function: the text, the reset word if
/// there is one, and how many hooks are listed.
fn signed(items: &str) -> Vec<String> {
    let form = format!("(module 0 0)\n{items}\n");
    let printed = instrument(&form, "", &[], &Options::default()).unwrap();
    printed
        .split("(str 0 0 \"")
        .skip(1)
        .filter(|rest| rest.contains('{') && rest.find('{') < rest.find('"'))
        .map(|rest| {
            let (text, rest) = rest.split_once("\")").unwrap();
            let word = match rest {
                rest if rest.starts_with(" (bool 0 0 true)") => " true",
                rest if rest.starts_with(" (bool 0 0 false)") => " false",
                _ => "",
            };
            let listed = if rest.contains("(array 0 0 ") { " listed" } else { "" };
            format!("{text}{word}{listed}")
        })
        .collect()
}

#[test]
fn what_the_published_pass_finds() {
    let foo = |body: &str| format!("(func 0 0 (id 0 0 Foo 1) (block 0 0 2 {body}))");
    let call = |callee: &str| format!("(expr 0 0 (call 0 0 {callee}))");
    let member = |object: &str| format!("(member 0 0 {object} (prop 0 0 useThing))");
    let a_b = "(member 0 0 (id 0 0 a 1) (prop 0 0 b))";
    let use_b = "(call 0 0 (id 0 0 useB 1))";
    for (items, want) in [
        (foo(&call(&member("(id 0 0 React 1)"))), vec!["useThing{}"]),
        (foo(&call(&member("(id 0 0 React 0)"))), vec!["useThing{}"]),
        (foo(&call(&member(a_b))), vec!["useThing{}"]),
        (foo(&call(&member("(id 0 0 Math 0)"))), vec!["useThing{} true"]),
        (foo(&call(&member("(id 0 0 a 1)"))), vec!["useThing{} false listed"]),
        // The function's own scope is not around it.
        (foo(&call("(id 0 0 useA 2)")), vec!["useA{} true"]),
        (foo(&call("(id 0 0 useRef 2)")), vec!["useRef{}"]),
        (foo(&format!("(if 0 0 (lit 0 0) (block 0 0 3 {}))", call("(id 0 0 useRef 1)"))), vec![]),
        (foo(&format!("(if 0 0 (lit 0 0) {})", call("(id 0 0 useRef 1)"))), vec!["useRef{}"]),
        (foo(&call(&format!("(id 0 0 useRef 1) {use_b}"))), vec!["useRef{}"]),
        (
            format!("(expr 0 0 (arrow 0 0 (call 0 0 (id 0 0 useRef 1) {use_b})))"),
            vec!["useB{}\\nuseRef{} false listed"],
        ),
        (
            format!("(func 0 0 (id 0 0 f 1) (dflt 0 0 (id 0 0 a 2) {use_b}) (block 0 0 2))"),
            vec![],
        ),
        (
            foo(&format!("(var 0 0 var (decl 0 0 (id 0 0 f 2) (arrow 0 0 (dflt 0 0 (id 0 0 a 3) {use_b}) (id 0 0 a 3))))")),
            vec!["useB{} false listed"],
        ),
        (foo(&call("(id 0 0 useState 1) (lit 0 0)")), vec!["useState{()}"]),
        (foo(&call("(id 0 0 useReducer 1) (lit 0 0)")), vec!["useReducer{}"]),
    ] {
        assert_eq!(signed(&items), want, "{items}");
    }
}
