//! What is no grammar, or can't be carried: the sentence and its place.
use tape::lalrpop::{parse, Unreadable};

fn refused(text: &str) -> String {
    match parse(text) {
        Ok(stage) => panic!("read: {text}\n{stage:?}"),
        Err(no) => no.to_string(),
    }
}

/// Behind a `grammar` line of its own.
#[track_caller]
fn refuses(items: &str, sentence: &str) {
    assert_eq!(refused(&format!("grammar;\n{items}")), sentence, "{items}");
}

#[test]
fn it_is_an_error_like_others() {
    let boxed: Box<dyn std::error::Error + Send + Sync> = parse("").unwrap_err().into();
    assert_eq!(boxed.to_string(), "1:1: a grammar: expected `grammar`, found the end");
    let no = Unreadable { line: 3, column: 14, what: "x".into() };
    assert_eq!(no.to_string(), "3:14: x");
}

#[test]
fn columns_are_characters() {
    assert_eq!(refused("// é\r\n/* é\né */ é"), "3:6: a grammar: expected `grammar`, found `é`");
}

#[test]
fn what_is_not_closed() {
    refuses("A = \"a\\\";", "2:5: a text in quotes is not closed");
    refuses("A = r##\"a\"#;", "2:5: a text in quotes is not closed");
    refuses("A = B\n  /* /* */;", "3:3: a comment is not closed");
    refuses("A = B => f(\n[1, 2);", "2:11: a bracket in Rust code is not closed");
    refuses("A = B => \"f();", "2:10: a text in quotes is not closed");
    refuses("use a::{b;", "2:8: a bracket in Rust code is not closed");
    assert_eq!(refused("#![a, b]"), "1:3: a bracket of an attribute is not closed");
    refuses("A = #[a(b = \"c)] B;", "2:13: a text in quotes is not closed");
    refuses("A = B \"", "2:7: a text in quotes is not closed");
}

#[test]
fn escapes() {
    refuses("A = \"a\\d\";", "2:7: there is no escape `\\d`");
}

#[test]
fn before_the_items() {
    assert_eq!(refused("A = B;"), "1:1: a grammar: expected `grammar`, found `A`");
    assert_eq!(refused("use a;\n#![b]\ngrammar;"), "2:1: a grammar: expected `grammar`, found `#![..]`");
    assert_eq!(refused("use a, b; grammar;"), "1:6: a `use`: expected `;`, found `,`");
    assert_eq!(refused("grammar"), "1:8: the `grammar` line: expected `;`, found the end");
    assert_eq!(refused("grammar<T;"), "1:10: the `grammar` line: expected `>`, found `;`");
    assert_eq!(refused("grammar(a: [T)];"), "1:14: the `grammar` line: expected `]`, found `)`");
    assert_eq!(refused("# LALR grammar;"), "1:3: an attribute: expected `[`, found `LALR`");
    assert_eq!(refused("#[LALR grammar;"), "1:15: an attribute: expected `]`, found `;`");
}

#[test]
fn items() {
    refuses("A = B;;", "2:7: a grammar: expected a nonterminal, `extern`, `match` or `use`, found `;`");
    refuses("grammar;", "2:1: a grammar: expected a nonterminal, `extern`, `match` or `use`, found `grammar`");
    refuses("pub = B;", "2:5: a nonterminal: expected a name, found `=`");
    refuses("pub(crate A = B;", "2:16: `pub`: expected `)`, found `;`");
    refuses("A;", "2:2: a nonterminal: expected `=`, found `;`");
    refuses("A <B> = B;", "2:3: a nonterminal: expected `=`, found `<`");
    refuses("A<B = C;", "2:5: arguments of a macro: expected `,` or `>`, found `=`");
    refuses("A<\"b\"> = C;", "2:3: arguments of a macro: expected a name, found a quoted text");
    refuses("A: = B;", "2:4: a nonterminal: expected a type, found `=`");
    refuses("A: Vec<T = B;", "2:13: a type: expected `>`, found `;`");
    refuses("A: T => B;", "2:6: a type: expected `=`, found `=>`");
    refuses("#[inline(a = \"b\")] A = B;", "2:1: the attribute `inline` of a nonterminal can't be carried");
    refuses("#[inline] #[cfg(a = \"b\")] A = B;", "2:11: the attribute `cfg` of a nonterminal can't be carried");
}

#[test]
fn names() {
    for word in ["_", "dyn", "else", "enum", "extern", "for", "grammar", "if", "in", "match", "mut", "pub", "type", "use", "where"] {
        refuses(&format!("pub {word} = B;"), &format!("2:5: a nonterminal: expected a name, found `{word}`"));
    }
    refuses("A = error;", "2:5: the name `error` can't be carried: `!` is printed so");
    refuses("é = B;", "2:1: the name `é` can't be carried: it is not ASCII");
    let no = "in backticks can't be carried: names are letters, digits and `_`, not `mut` or `error`";
    refuses("A = `B?`;", &format!("2:5: the name `B?` {no}"));
    refuses("`A<\"b\">` = B;", &format!("2:1: the name `A<\"b\">` {no}"));
    refuses("A = ``;", &format!("2:5: the name `` {no}"));
    refuses("A = `error`;", &format!("2:5: the name `error` {no}"));
    refuses("A = `B;", "2:5: a name in backticks is not closed");
    refuses("M<`A`> = B;", "2:3: arguments of a macro: expected a name, found `A` in backticks");
}

#[test]
fn alternatives() {
    refuses("A = ;", "2:5: an alternative: expected a symbol or `=>`, found `;`");
    refuses("A = #[a] if B == \"c\";", "2:21: an alternative: expected a symbol or `=>`, found `;`");
    refuses("A = B", "2:6: an alternative: expected `;`, found the end");
    refuses("A = B | C;", "2:7: an alternative: expected `;`, found `|`");
    refuses("A = { B; C };", "2:8: alternatives: expected `,` or `}`, found `;`");
    refuses("A = { , };", "2:7: an alternative: expected a symbol or `=>`, found `,`");
    refuses("A = b:B;", "2:6: an alternative: expected `;`, found `:`");
    refuses("A = B => \"é\";", "2:7: an action can't be carried: it is not ASCII");
    refuses("A = B =>@LR;", "2:11: an alternative: expected `;`, found `R`");
    refuses("A = B =>@ L;", "2:7: `=>@` stands without `L` or `R`");
    refuses("A = B =>@L C;", "2:12: an alternative: expected `;`, found `C`");
}

#[test]
fn attributes() {
    let forms = "can't be carried: it is neither `#[cfg]` nor `#[cfg(key = \"value\")]`";
    for arg in ["(a)", "(not(a = \"b\"))", "(a = \"b\", c)", " = \"a\"", "()"] {
        refuses(&format!("A = {{ B, #[cfg{arg}] C }};"), &format!("2:10: the attribute `cfg` {forms}"));
    }
    refuses("A = #a B;", "2:6: an attribute: expected `[`, found `a`");
    refuses("A = #[\"a\"] B;", "2:7: an attribute: expected a name, found a quoted text");
    refuses("A = #[a(b = \"c\"] B;", "2:16: an attribute: expected `)`, found `]`");
    refuses("A = #[a(b = \"é\")] B;", "2:13: the value of an attribute can't be carried: it is not ASCII");
    refuses("A = #[a(é = \"b\")] B;", "2:9: the key of an attribute can't be carried: it is not ASCII");
}

#[test]
fn conditions() {
    refuses("M<A> = A if A ~~ \"b\";", "2:15: a condition with `~~` can't be carried");
    refuses("M<A> = A if A !~ \"b\";", "2:15: a condition with `!~` can't be carried");
    refuses("M<A> = A if A = \"b\";", "2:15: a condition: expected `==` or `!=`, found `=`");
    refuses("M<A> = A if A == ~~ \"b\";", "2:18: a condition: expected a quoted text, found `~~`");
    refuses("M<A> = A if \"b\" == A;", "2:13: a condition: expected a name, found a quoted text");
    refuses("M<A> = A if A == r\"b\";", "2:18: a condition: expected a quoted text, found a regex");
    refuses("M<A> = A if A == \"\\n\";", "2:18: the text of a condition can't be carried: it is not printable ASCII");
}

#[test]
fn symbols() {
    refuses("A = M<>;", "2:5: a macro call without arguments can't be carried");
    refuses("A = M<B;", "2:8: a macro call: expected `,` or `>`, found `;`");
    refuses("A = M<,>;", "2:7: an alternative: expected a symbol, found `,`");
    refuses("A = <>;", "2:6: an alternative: expected a symbol, found `>`");
    refuses("A = <B C>;", "2:8: a choice: expected `>`, found `C`");
    refuses("A = <mut B>;", "2:11: a choice: expected `:`, found `>`");
    refuses("A = <mut:B>;", "2:9: a choice: expected a name, found `:`");
    refuses("A = <if>;", "2:6: an alternative: expected a name, found `if`");
    refuses("A = B <(b, (mut c, d)):B>;", "2:7: a tuple pattern can't be carried");
    refuses("A = <(b, c):B>;", "2:5: a tuple pattern can't be carried");
    refuses("A = (B, C);", "2:7: a group: expected `)`, found `,`");
    refuses("A = \"\\t\";", "2:5: a quoted terminal can't be carried: it is not printable ASCII");
    refuses("A = r\"é\";", "2:5: a regex can't be carried: it is not printable ASCII");
}

#[test]
fn blocks() {
    refuses("extern;", "2:7: `extern` block: expected `{`, found `;`");
    refuses("extern { x }", "2:10: `extern` block: expected `}`, found `x`");
    refuses("extern { type A = B }", "2:21: `extern` block: expected `;`, found `}`");
    refuses("extern { enum A; }", "2:16: `extern` block: expected `{`, found `;`");
    refuses("extern { enum A { b } }", "2:21: `extern` block: expected `=>`, found `}`");
    refuses("extern { enum A { b =>? B } }", "2:21: `extern` block: expected `=>`, found `=>?`");
    refuses("extern { enum A { b => , } }", "2:21: `extern` block: expected a pattern behind `=>`");
    refuses("extern { enum A { b => B; } }", "2:25: `extern` block: expected `,` or `}`, found `;`");
    refuses("extern { enum A { <b> => B } }", "2:19: `extern` block: expected a terminal, found `<`");
    refuses("extern { enum A { #[cfg(a = \"b\")] c => C } }", "2:19: an attribute of a token can't be carried");
    refuses("extern { enum A { error => B } }", "2:19: the name `error` can't be carried: `!` is printed so");
    refuses("match;", "2:6: `match` block: expected `{`, found `;`");
    refuses("match { a }", "2:9: `match` block: expected a literal or `_`, found `a`");
    refuses("match { \"a\" b }", "2:13: `match` block: expected `,` or `}`, found `b`");
    refuses("match { \"a\" =>  b c }", "2:17: `match` block: expected a terminal or `{}` behind `=>`");
    refuses("match { \"a\" => mut }", "2:16: `match` block: expected a terminal or `{}` behind `=>`");
    refuses("match { \"a\" => \"\\d\" }", "2:17: there is no escape `\\d`");
    refuses("match { \"a\" => é }", "2:16: the name `é` can't be carried: it is not ASCII");
    refuses("match { \"a\" } else", "2:19: `match` block: expected `{`, found the end");
}
