use super::*;

fn whole(form: &str, source: &str) -> Result<String, Refusal> {
    instrument(form.as_bytes(), source.as_bytes(), &[], &Options::default())
        .map(|printed| String::from_utf8(printed).unwrap())
}

/// The signatures in a printed module, line feeds as `\n`.
fn signatures(form: &str, source: &str) -> Vec<String> {
    let printed = whole(form, source).unwrap();
    printed.split("(str 0 0 \"").skip(1).map(|s| s.split('"').next().unwrap().into()).collect()
}

#[test]
fn one_module_whole() {
    let form = "(module 1 29)\n(func 1 29 (id 10 13 Foo 1) (block 15 29 2 (expr 16 28 (call 16 27 (id 16 24 useState 3) (lit 25 26)))))\n";
    let printed = r#"(module 1 29)
(var 0 0 var (decl 0 0 (hand 0 0 _s 0) (call 0 0 (id 0 0 $RefreshSig$ 0))))
(func 1 29 (id 10 13 Foo 1) (block 15 29 2 (expr 0 0 (call 0 0 (hand 0 0 _s 0))) (expr 16 28 (call 16 27 (id 16 24 useState 3) (lit 25 26)))))
(expr 0 0 (call 0 0 (hand 0 0 _s 0) (id 10 13 Foo 1) (str 0 0 "useState{(0)}")))
(expr 0 0 (assign 10 13 (hand 0 0 _c 1) (id 10 13 Foo 1)))
(var 0 0 var (decl 0 0 (hand 0 0 _c 1)))
(expr 0 0 (call 0 0 (id 0 0 $RefreshReg$ 0) (hand 0 0 _c 1) (str 0 0 "Foo")))
"#;
    assert_eq!(whole(form, "function Foo(){useState(0);}").unwrap(), printed);
}

#[test]
fn told_cases() {
    let function =
        |body: &str| format!("(module 0 0)\n(func 0 0 (id 0 0 f 1) (block 0 0 2 {body}))\n");
    for (name, is) in [("useA", true), ("use", false), ("user", false)] {
        let form = function(&format!("(expr 0 0 (call 0 0 (id 0 0 {name} 1)))"));
        assert_eq!(!signatures(&form, "").is_empty(), is);
    }
    //            123456789012345678901234567890
    let source = "const a = 1, b = useState(0)";
    let form = function("(var 1 29 const (decl 7 12 (id 7 8 a 2) (lit 11 12)) (decl 14 29 (id 14 15 b 2) (call 18 29 (id 18 26 useState 1) (lit 27 28))))");
    assert_eq!(signatures(&form, source), ["useState{(0)}\\nuseState{b(0)}"]);
    let nested = "(call 0 0 (id 0 0 useA 1) (call 0 0 (id 0 0 useB 1)))";
    assert_eq!(signatures(&function(&format!("(expr 0 0 {nested})")), ""), ["useA{}"]);
    let arrow = format!("(module 0 0)\n(expr 0 0 (arrow 0 0 {nested}))\n");
    assert_eq!(signatures(&arrow, ""), ["useB{}\\nuseA{}"]);
    //            12345678901234567890123456789012345678901234
    let source = "const [a] = useState(function(){ useB(); })";
    let form = function("(var 1 44 const (decl 7 44 (pat 7 10 (id 8 9 a 2)) (call 13 44 (id 13 21 useState 1) (fn 22 43 - (block 32 43 3 (expr 34 41 (call 34 40 (id 34 38 useB 1))))))))");
    assert_eq!(signatures(&form, source), ["useB{}", "useState{[a](function(){ useB(); })}"]);
}

#[test]
fn notes_at_the_limits() {
    let note = |length: usize| Note { side: 0, position: 1, text: vec![b'x'; length] };
    assert_eq!(take_notes(&vec![note(32); 512], b""), Ok(()));
    assert_eq!(take_notes(&vec![note(0); 513], b""), Err(Refusal { number: 7, place: 0 }));
    assert_eq!(take_notes(&[note(16_385)], b""), Err(Refusal { number: 7, place: 0 }));
    assert_eq!(
        take_notes(&[Note { side: 0, position: 2, text: Vec::new() }], b""),
        Err(Refusal { number: 6, place: 2 })
    );
}

#[test]
fn first_wrong_tokens() {
    for (form, number, place) in [
        ("", 2, 0),
        ("x", 2, 0),
        ("é", 1, 0),
        ("(module 0 0)", 2, 12),
        ("(module 0 0)\n\n", 2, 13),
        ("(module 0 1)\n", 2, 10),
        ("(module 00 0)\n", 2, 8),
        ("(module 2 2)\n", 2, 8),
        ("(module 1 1)\n(expr 0 0)\n", 2, 22),
        ("(module 1 1)\n(expr 0 0 (str 0 0 \"a\"))\n", 2, 24),
        ("(module 1 1)\n(expr 0 0 (id 0 0 1a 0))\n", 2, 31),
        ("(module 1 1)\n(expr 0 0 (id 0 0 a-b 0))\n", 1, 31),
        ("(module 1 1)\n(expr 0 0 (id 0 0 - 0))\n", 2, 31),
        ("(module 1 1)\n(expr 0 0 (id 0 0 a 65536))\n", 2, 33),
        ("(module 1 1)\n(expr 0 0 (arrow 0 0 (pat 0 0)))\n", 2, 43),
        ("(module 1 1)\n(expr 0 0 (arrow 0 0 (lit 0 0) (lit 0 0)))\n", 2, 43),
        ("(module 1 1)\n(expr 0 0  (lit 0 0))\n", 2, 23),
    ] {
        assert_eq!(whole(form, ""), Err(Refusal { number, place }), "{form:?}");
    }
    let deep = |n: usize| {
        format!(
            "(module 0 0)\n(expr 0 0 {}{})\n",
            "(array 0 0 ".repeat(n),
            "(lit 0 0)".to_string() + &")".repeat(n)
        )
    };
    assert!(whole(&deep(62), "").is_ok());
    assert_eq!(whole(&deep(63), ""), Err(Refusal { number: 3, place: 13 + 10 + 63 * 11 }));
}

#[test]
fn sizes() {
    let items = |n: usize| "(module 0 0)\n".to_string() + &"(return 0 0)\n".repeat(n);
    let with = |form: &str, nodes| {
        let options = Options { nodes, ..Options::default() };
        instrument(form.as_bytes(), b"", &[], &options).map(|_| ())
    };
    assert_eq!(with(&items(15), 16), Ok(()));
    assert_eq!(with(&items(16), 16), Err(Refusal { number: 4, place: 0 }));
    assert_eq!(with(&items(1), 15), Err(Refusal { number: 4, place: 0 }));
    assert_eq!(with("", 8193), Err(Refusal { number: 4, place: 0 }));
}
