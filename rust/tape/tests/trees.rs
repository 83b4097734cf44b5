//! Grammars in LALRPOP's notation, and the trees that the builder makes: the same, but for their spans.
mod common;
use common::carried;
use tape::tree::*;

/// The grammar's items are these, wherever they stand.
fn same(grammar: &str, items: impl IntoIterator<Item = Item>) {
    let carried: Vec<Item> = carried(grammar).items.into_iter().map(Item::nowhere).collect();
    assert_eq!(carried, items.into_iter().collect::<Vec<_>>());
}

/// A nonterminal of one alternative.
fn one<const N: usize>(name: &str, symbols: [Symbol; N]) -> Item {
    Nonterminal::new(name).alternative(Alternative::new(symbols)).into()
}

fn name(name: &str) -> Symbol {
    Symbol::name(name)
}

/// The only alternative of the only item.
fn only(grammar: &str) -> Alternative {
    let mut stage = carried(grammar);
    let Some(Item::Nonterminal(mut nonterminal)) = stage.items.pop() else { panic!("no nonterminal") };
    assert!(stage.items.is_empty() && nonterminal.alternatives.len() == 1);
    nonterminal.alternatives.remove(0)
}

fn action(code: &str) -> Action {
    only(&format!("grammar; A = {{ \"a\" {code}}};")).action
}

fn user(code: &str) -> Action {
    Action::User(code.into())
}

fn kind(symbol: &str) -> Kind {
    only(&format!("grammar; A = {symbol};")).symbols.remove(0).kind
}

#[test]
fn every_symbol() {
    let (b, text) = (name("B"), Symbol::quoted("b"));
    let symbols = [
        b.clone(),
        text.clone(),
        Symbol::regex("b+"),
        Symbol::call("M", [b.clone(), Symbol::quoted("x")]),
        name("M"),
        b.clone().chosen(),
        b.clone().repeated(Repeat::Star),
        b.clone().repeated(Repeat::Plus),
        b.clone().repeated(Repeat::Question),
        b.clone().chosen(),
        b.clone().named("b"),
        b.clone().mutable("b"),
        Symbol::group([b, text]),
        Symbol::group([]),
        Symbol::lookahead(),
        Symbol::lookbehind(),
        Symbol::error(),
    ];
    same(r#"grammar; A = B "b" r"b+" M<B, "x"> M <B> B* B+ B? <B> <b:B> <mut b:B> (B "b") () @L @R !;"#, [one("A", symbols)]);
}

#[test]
fn symbols_inside_symbols() {
    let list = Symbol::group([name("B").chosen(), Symbol::quoted(",")]).repeated(Repeat::Star).named("b");
    let pair = Symbol::group([name("B"), name("C").repeated(Repeat::Plus)]);
    let call = Symbol::call("M", [Symbol::call("N", [name("B").repeated(Repeat::Question)]), pair]).chosen();
    let repeats = [Repeat::Star, Repeat::Plus, Repeat::Question].into_iter().fold(call, Symbol::repeated);
    same("grammar; A = <b:(<B> \",\")*> <M<N<B?>, (B C+)>>*+?;", [one("A", [list, repeats])]);
    let named = name("B").named("b");
    let symbols = [name("B").chosen().named("b"), Symbol::call("M", [named.clone()]), Symbol::group([named.clone()]), named.named("c")];
    same("grammar; A = <b:<B>> M<<b:B>,> (<b:B>) <c:<b:B>>;", [one("A", symbols)]);
}

#[test]
fn texts_of_terminals() {
    assert_eq!(kind(r#""""#), Kind::Quoted("".into()));
    assert_eq!(kind(r#""\"\\ //""#), Kind::Quoted("\"\\ //".into()));
    assert_eq!(kind(r#"r"\d\\""#), Kind::Regex(r"\d\\".into()));
    assert_eq!(kind(r###"r##"a"#b"##"###), Kind::Regex("a\"#b".into()));
    assert_eq!(kind("r"), Kind::Ambiguous("r".into()));
}

/// A name in backticks is a nonterminal's, be it a keyword.
#[test]
fn backticks() {
    let group = Symbol::group([Symbol::nonterminal("grammar").repeated(Repeat::Question)]);
    let a = Nonterminal::new("A").public().alternative(Alternative::new([Symbol::nonterminal("B"), group, name("B")]));
    same("grammar; pub `A` = `B` (`grammar`?) B; `grammar` = A;", [a.into(), one("grammar", [name("A")])]);
}

#[test]
fn heads() {
    let b = || Alternative::new([name("B")]);
    let [a, c, d] = ["A", "C", "D"].map(|name| Nonterminal::new(name).alternative(b()));
    let flags = [a.clone().public().into(), c.inline().into(), d.public().inline().into()];
    same("grammar; pub A = B; #[inline] C = B; #[inline] pub(crate) D = B;", flags);
    let m = Nonterminal::new("M").public().arg("P").arg("Q").alternative(Alternative::new([name("P"), name("Q")]));
    same("grammar; A<> = B; pub(in a::b) M<P, Q,> = P Q;", [a.into(), m.into()]);
}

#[test]
fn one_alternative_or_many() {
    let either = ["B", "C"].map(|symbol| Alternative::new([name(symbol)]));
    let [a, d] = ["A", "D"].map(|name| Nonterminal::new(name).alternatives(either.clone()).into());
    let e = Nonterminal::new("E").alternative(Alternative::new([]).action(Action::Lookahead));
    same("grammar; A = { B, C } D = { B, C, }; E = =>@L;", [a, d, e.into()]);
    let stage = carried("grammar; A = {};");
    assert!(matches!(&stage.items[..], [Item::Nonterminal(none)] if none.alternatives.is_empty()));
}

/// Whatever is between these is no part of the tree.
#[test]
fn what_is_left_out() {
    same(
        r##"
        #![allow(clippy::all, unused)]
        #![doc = "]"]
        use a::{b, c}; // grammar
        #[LALR] #[cfg(all(a, b = "c"))]
        grammar<'input, T>(text: &'input str, f: Box<dyn Fn(T) -> u8>) where T: Iterator<Item = &'input str>;
        use d::*;
        A: Box<dyn Fn(&'input [T]) -> Vec<(T, ())>>= B; /* C = /* D */ ; */
        B: () = "b";
        "##,
        [one("A", [name("B")]), one("B", [Symbol::quoted("b")])],
    );
}

#[test]
fn terminals_of_blocks() {
    same(
        r##"
        grammar;
        extern {
            type Location = usize;
            type Error = Box<dyn Error<Item = ()>>;
            enum Token<'input> { "+" => Token::Plus(_, ','), num => Token::Num(<i32>), r"x" => X { .. }, name => Token::Name, }
            type More = u8;
        }
        match { r"(?i)begin" => "BEGIN", "m" => m /* , */, r"\s*" => { }, "x" } else { r"[a-z]+" => id, _ }
        extern { type Location = usize; }
        extern {}
        "##,
        [Item::external("num"), Item::external("name"), Item::matched("m"), Item::matched("id")],
    );
}

#[test]
fn attributes_and_conditions() {
    let alternatives = [
        Alternative::new([name("P")]).attribute("a").value("b", "k", "v").when("P", "x"),
        Alternative::new([Symbol::quoted("y")]).value("cfg", "feature", "f").unless("P", "").action(user("z")),
        Alternative::new([]).when("P", "z").action(user("w")),
    ];
    same(
        r#"grammar; M<P> = { #[a] #[ b ( k = "v" ) ] P if P == "x", #[cfg(feature = "f",)] "y" if P != "" => z, if P == "z" => w };"#,
        [Nonterminal::new("M").arg("P").alternatives(alternatives).into()],
    );
    // LALRPOP leaves escapes in a value as they are written
    let escapes = only(r#"grammar; A = #[b(k = "\n\"\d\\")] B;"#).attributes;
    assert_eq!(escapes, [Attribute { id: "b".into(), equal: Some(("k".into(), r#"\n\"\d\\"#.into())) }]);
    let condition = only(r#"grammar; A = B if P == "\"\\";"#).condition.expect("a condition");
    assert_eq!(condition.rhs, r#""\"#);
}

#[test]
fn actions() {
    assert_eq!((action(""), action("=>@L"), action("=>@R")), (Action::None, Action::Lookahead, Action::Lookbehind));
    // a blank makes it code
    assert_eq!((action("=> @L"), action("=> "), action("=>? f(<>)?")), (user("@L"), user(""), Action::Fallible("f(<>)?".into())));
    assert_eq!(action("=> { a; [b, (c, d)] },"), user("{ a; [b, (c, d)] }"));
    assert_eq!(action(r#"=> f("},\"", '}', b'\'', '\u{7d}'),"#), user(r#"f("},\"", '}', b'\'', '\u{7d}')"#));
    assert_eq!(action(r"=> f('\'','}'),"), user(r"f('\'','}')"));
    assert_eq!(action("=> g::<'a>(x),"), user("g::<'a>(x)"));
    assert_eq!(action("=> &'a (x) /* }, /* */ ; */ + r, // ,\n"), user("&'a (x) /* }, /* */ ; */ + r"));
    assert_eq!(action(r##"=> (r#"")"#, r"\", r),"##), user(r##"(r#"")"#, r"\", r)"##));
}

/// Three levels, as in LALRPOP's book.
#[test]
fn a_calculator() {
    let binary = |op: &str| Alternative::new([name("Expr").named("l"), Symbol::quoted(op), name("Expr").named("r")]);
    let left = |alternative: Alternative, level: &str| alternative.value("precedence", "level", level).value("assoc", "side", "left");
    let expressions = [
        Alternative::new([name("Num")]).value("precedence", "level", "1"),
        Alternative::new([Symbol::quoted("("), name("Expr").chosen(), Symbol::quoted(")")]),
        left(binary("*"), "2").action(user("Box::new(Expr::Op(l, Mul, r))")),
        binary("/").action(Action::Fallible("l.over(r)".into())),
        left(binary("+"), "3").action(user("Box::new(Expr::Op(l, Add, r))")),
    ];
    let num = Alternative::new([Symbol::regex("[0-9]+")]).action(user("i32::from_str(<>).unwrap()"));
    let num = Nonterminal::new("Num").alternative(num);
    same(
        r#"
        use std::str::FromStr;

        grammar;

        pub Expr: Box<Expr> = {
            #[precedence(level="1")] // the highest
            Num,
            "(" <Expr> ")",

            #[precedence(level="2")] #[assoc(side="left")]
            <l:Expr> "*" <r:Expr> => Box::new(Expr::Op(l, Mul, r)),
            <l:Expr> "/" <r:Expr> =>? l.over(r),

            #[precedence(level="3")]
            #[assoc(side="left")]
            <l:Expr> "+" <r:Expr> => Box::new(Expr::Op(l, Add, r)),
        };

        Num: i32 = r"[0-9]+" => i32::from_str(<>).unwrap();
        "#,
        [Nonterminal::new("Expr").public().alternatives(expressions).into(), num.into()],
    );
}

#[test]
fn a_grammar_with_macros() {
    let calls = Nonterminal::new("Calls").public().alternative(Alternative::new([Symbol::call("Comma", [name("Call")])]));
    let arguments = Symbol::call("Comma", [Symbol::call("Tier", [Symbol::quoted("left"), name("name"), Symbol::quoted("+")])]);
    let call = [name("name").named("n"), Symbol::quoted("("), arguments.named("a"), Symbol::quoted(")")];
    let call = Nonterminal::new("Call").alternative(Alternative::new(call).action(user("Call::new(n, a)")));
    let items = Symbol::group([name("T").chosen(), Symbol::quoted(",")]).repeated(Repeat::Star).mutable("v");
    let list = Alternative::new([items, name("T").repeated(Repeat::Question).named("e")]).action(user("joined(v, e)"));
    let comma = Nonterminal::new("Comma").arg("T").alternative(list);
    let (tier, next) = (Symbol::call("Tier", ["Side", "Next", "Op"].map(name)), name("Next"));
    let tree = |left: &Symbol, right: &Symbol| {
        let symbols = [left.clone().named("l"), name("Op").named("o"), right.clone().named("r")];
        Alternative::new(symbols).action(user("tree(l, o, r)"))
    };
    let tiers = [tree(&tier, &next).when("Side", "left"), tree(&next, &tier).unless("Side", "left"), Alternative::new([next])];
    let tiers = Nonterminal::new("Tier").arg("Side").arg("Next").arg("Op").alternatives(tiers);
    same(
        r#"
        grammar;
        pub Calls = Comma<Call>;
        Call: Call = <n:name> "(" <a:Comma<Tier<"left", name, "+">>> ")" => Call::new(n, a);
        Comma<T>: Vec<T> = <mut v:(<T> ",")*> <e:T?> => joined(v, e);
        Tier<Side, Next, Op>: Expr = {
            <l:Tier<Side, Next, Op>> <o:Op> <r:Next> if Side == "left" => tree(l, o, r),
            <l:Next> <o:Op> <r:Tier<Side, Next, Op>> if Side != "left" => tree(l, o, r),
            Next,
        };
        extern { enum Token { name => Token::Name(<String>) } }
        "#,
        [calls.into(), call.into(), comma.into(), tiers.into(), Item::external("name")],
    );
}
