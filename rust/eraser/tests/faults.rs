//! What stops the eraser: one line, with the file and the line.
use eraser::fault::Fault;
use eraser::lexer::{tokens, Kind};
use eraser::rules::Place;

fn erased(text: &str) -> Result<String, Fault> {
    let place = Place {
        name: "uses".to_string(),
        is_library: false,
        library: Default::default(),
        laws: Default::default(),
    };
    eraser::erased("a.rt", text, &place).map(|(text, _)| text)
}

#[test]
fn a_source_of_an_unknown_form_is_named() {
    let rows = [
        (
            "\nghost fn f() {}\n",
            "a.rt:2: a ghost item of an unknown form",
        ),
        (
            "fn f() {\n    ghost;\n}\n",
            "a.rt:2: a ghost item of an unknown form",
        ),
        (
            "fn f() {\n    (1;\n}\n",
            "a.rt:3: a bracket that closes none",
        ),
        (
            "fn f()\n    ensures { a ≡ (b }\n{}\n",
            "a.rt:2: a bracket that closes none",
        ),
        ("fn f()\n    ensures { a\n", "a.rt:2: a bracket without end"),
        (
            "fn f()\n    ensures a b\n{}\n",
            "a.rt:2: a clause of an unknown form",
        ),
        (
            "fn f()\n    ensures { a }\nlet b = 1;\n",
            "a.rt:3: clauses that no body follows",
        ),
        (
            "use std::net::TcpStream;\n",
            "a.rt:1: std::net isn't known here",
        ),
        (
            "use std::alloc::{Global, Arena};\n",
            "a.rt:1: std::alloc::Arena isn't known here",
        ),
        (
            "impl Drop for Page {\n    fn drop(self) {}\n}\n",
            "a.rt:1: an impl of Drop",
        ),
        ("fn f() -> Drop {}\n", "a.rt:1: Drop in an unknown place"),
        (
            "fn law()\n    ensures { a }\n{\n}\nmod other {\n    fn law() {\n        go(1);\n    }\n}\n",
            "a.rt:6: a function with the name of a law",
        ),
        (
            "fn f() {\n    prove_page(next());\n}\n",
            "a.rt:2: a law that is given what is computed there",
        ),
        (
            "fn prove_it(&mut self) {}\n",
            "a.rt:1: a function with the name of a law",
        ),
        (
            "fn prove_it() -> u32 {\n    1\n}\n",
            "a.rt:1: a function with the name of a law",
        ),
        (
            "pub extern \"C\" fn f(a: &u32) -> usize {\n    0\n}\n",
            "a.rt:1: an export whose result has no value for a null pointer",
        ),
        (
            "fn f() {\n    invariant { a };\n}\n",
            "a.rt:2: a word of the prover in an unknown place",
        ),
        (
            "fn f() {\n    let Some(ref a) = b else { return };\n}\n",
            "a.rt:2: a pattern before else of an unknown form",
        ),
        (
            "fn f() {\n    let None = b else { return };\n}\n",
            "a.rt:2: a pattern before else that binds nothing",
        ),
        (
            "#[derive(Error)]\npub struct E;\n",
            "a.rt:2: an error that is no plain enum",
        ),
        (
            "#[derive(Error)]\npub enum E {\n    A,\n}\n",
            "a.rt:3: a variant of an error without a text",
        ),
        (
            "fn f() {}\n/* no end\n",
            "a.rt:2: a comment or a text without end",
        ),
        (
            "fn f() { \"no end }\n",
            "a.rt:1: a comment or a text without end",
        ),
    ];
    for (text, told) in rows {
        assert_eq!(erased(text), Err(Fault(told.to_string())), "{}", text);
    }
}

#[test]
fn what_needs_no_rule_stays_to_the_byte() {
    let rows = [
        "fn f<'a>(x: &'a str) -> char { let _ = (b'{', '\\'', \"}\\\"\"); '{' }\n",
        "// ghost use a;\n/* requires { /* x */ } */\nfn f() {}\n",
        "fn f() -> &'static str { r#\"ghost \" use\"# }\n",
        "fn f(x: u32) -> u32 { if let Some(y) = g(x) { y } else { 0 } }\n",
        "fn f(x: u32) -> u32 { let y = if x == 1 { 2 } else { 3 }; y }\n",
    ];
    for text in rows {
        assert_eq!(erased(text).as_deref(), Ok(text));
    }
}

#[test]
fn tokens_cover_the_text() {
    let rows: [(&str, &[Kind]); 6] = [
        (
            "a' b''",
            &[
                Kind::Word,
                Kind::Mark,
                Kind::Space,
                Kind::Word,
                Kind::Mark,
                Kind::Mark,
            ],
        ),
        ("'a' 'a", &[Kind::Letter, Kind::Space, Kind::Lifetime]),
        (
            "1.5..2",
            &[Kind::Number, Kind::Mark, Kind::Mark, Kind::Number],
        ),
        ("«data»:", &[Kind::Word, Kind::Mark]),
        ("r\"\\\" \"c\"", &[Kind::Text, Kind::Space, Kind::Text]),
        ("// a\n", &[Kind::Comment, Kind::Space]),
    ];
    for (text, kinds) in rows {
        let found = tokens("a.rt", text).expect(text);
        assert_eq!(
            found.iter().map(|t| t.kind).collect::<Vec<_>>(),
            kinds,
            "{}",
            text
        );
        assert_eq!(
            found
                .iter()
                .map(|t| &text[t.start..t.end])
                .collect::<String>(),
            text
        );
    }
}
