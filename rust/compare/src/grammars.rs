//! The grammars of LALRPOP 0.19.8's unit tests of resolve, precedence and macro_expand, written anew.
//! Left out, since the tape doesn't carry them: types, conditions with `~~` and `!~`, and the trees behind macro expansion, whose
//! names (like `Comma<"Id">`) question 4 refuses.
use crate::levels::unmarked;
use reading::tree::Stage;
use reading::{parse, write, Refusal};

pub struct Known {
    pub about: &'static str,
    /// The grammar; `[[` and `]]` mark the place of a refusal.
    marked: &'static str,
    /// The refusal that the unit test waits for.
    number: Option<u8>,
}

impl Known {
    pub fn stage(&self) -> Stage {
        parse(&unmarked(self.marked).0)
    }

    pub fn tape(&self) -> Vec<u8> {
        write(&self.stage())
    }

    /// The refusal with the place that is marked.
    pub fn refused(&self) -> Option<Refusal> {
        Some(Refusal { number: self.number?, place: unmarked(self.marked).1? })
    }
}

/// Every one of them.
pub fn all() -> impl Iterator<Item = &'static Known> {
    RESOLVE.iter().chain(&PRECEDENCE).chain(&MACRO_EXPAND)
}

const fn good(about: &'static str, marked: &'static str) -> Known {
    Known { about, marked, number: None }
}

const fn bad(about: &'static str, number: u8, marked: &'static str) -> Known {
    Known { about, marked, number: Some(number) }
}

pub static RESOLVE: [Known; 7] = [
    bad("a name without a definition", 8, "X = X [[Y]];"),
    bad("one in a macro argument", 8, "X = X Id<[[Y]]>; Id<T> = T;"),
    bad("one under a question mark", 8, "X = [[Y]]?;"),
    bad("one that is chosen, in a second alternative", 8, r#"Term = { <n:"Num"> => n.as_num(), "A" <[[Expr]]> "B" };"#),
    bad("a nonterminal declared twice", 5, r#"A = "Foo"; [[A]] = "Bar";"#),
    bad("an argument declared twice", 7, r#"[[X<Y, Y>]] = "foo";"#),
    bad("a nonterminal and an extern terminal", 6, r#"A = "Foo"; extern { enum Foo { [[A => Foo::A(..) ]]} }"#),
];

/// What stands before levels, and behind them.
pub static PRECEDENCE: [Known; 10] = [
    good(
        "three levels, no sides",
        r#"Expr = { #[precedence(level="1")] <left:Expr> "*" <right:Expr> => 0,
         #[precedence(level="1")] <left:Expr> "/" <right:Expr> => 0,
         #[precedence(level="2")] <left:Expr> "+" <right:Expr> => 0,
         #[precedence(level="2")] <left:Expr> "-" <right:Expr> => 0,
         #[precedence(level="3")] <left:Expr> "%" <right:Expr> => 0 };
         Ext = Expr;"#,
    ),
    good(
        "three levels, no sides: behind",
        r#"Expr1 = { <left:Expr1> "*" <right:Expr1> => 0, <left:Expr1> "/" <right:Expr1> => 0 };
         Expr2 = { <left:Expr2> "+" <right:Expr2> => 0, <left:Expr2> "-" <right:Expr2> => 0, Expr1 };
         Expr = { <left:Expr> "%" <right:Expr> => 0, Expr2 };
         Ext = Expr;"#,
    ),
    good(
        "sides of all four kinds, inherited levels",
        r#"Expr = { #[precedence(level="1")] "const" => 0, "!" <Expr> => 0,
         #[precedence(level="2")] #[assoc(side="none")] "!!" <Expr> => 0,
         #[assoc(side="left")] "const2" => 0,
         #[precedence(level="2")] #[assoc(side="left")] <left:Expr> "*" <right:Expr> => 0,
         #[assoc(side="right")] <left:Expr> "/" <right:Expr> => 0,
         #[precedence(level="3")] #[assoc(side="left")] <left:Expr> "?" <middle:Expr> ":" <right:Expr> => 0,
         #[assoc(side="right")] <left:Expr> "|" <middle:Expr> "-" <right:Expr> => 0,
         #[assoc(side="none")] <left:Expr> "^" <middle:Expr> "$" <right:Expr> => 0,
         #[assoc(side="all")] <left:Expr> "[" <middle:Expr> ";" <right:Expr> => 0 };"#,
    ),
    good(
        "sides of all four kinds: behind",
        r#"Expr1 = { "const" => 0, "!" <Expr1> => 0 };
         Expr2 = { "!!" <Expr1> => 0, "const2" => 0, <left:Expr2> "*" <right:Expr1> => 0,
         <left:Expr1> "/" <right:Expr2> => 0, Expr1 };
         Expr = { <left:Expr> "?" <middle:Expr2> ":" <right:Expr2> => 0, <left:Expr2> "|" <middle:Expr2> "-" <right:Expr> => 0,
         <left:Expr2> "^" <middle:Expr2> "$" <right:Expr2> => 0, <left:Expr> "[" <middle:Expr> ";" <right:Expr> => 0, Expr2 };"#,
    ),
    good(
        "levels 5, 0, 3 in this order",
        r#"Expr = { #[precedence(level="5")] #[assoc(side="left")] <left:Expr> "?" <middle:Expr> ":" <right:Expr> => 0,
         #[assoc(side="right")] <left:Expr> "|" <middle:Expr> "-" <right:Expr> => 0,
         #[assoc(side="none")] <left:Expr> "^" <middle:Expr> "$" <right:Expr> => 0,
         #[assoc(side="all")] <left:Expr> "[" <middle:Expr> ";" <right:Expr> => 0,
         #[precedence(level="0")] "const" => 0, "!" <Expr> => 0,
         #[precedence(level="3")] #[assoc(side="none")] "!!" <Expr> => 0,
         #[assoc(side="left")] "const2" => 0, <left:Expr> "*" <right:Expr> => 0,
         #[assoc(side="right")] <left:Expr> "/" <right:Expr> => 0 };"#,
    ),
    good(
        "levels 5, 0, 3: behind",
        r#"Expr0 = { "const" => 0, "!" <Expr0> => 0 };
         Expr3 = { "!!" <Expr0> => 0, "const2" => 0, <left:Expr3> "*" <right:Expr0> => 0,
         <left:Expr0> "/" <right:Expr3> => 0, Expr0 };
         Expr = { <left:Expr> "?" <middle:Expr3> ":" <right:Expr3> => 0, <left:Expr3> "|" <middle:Expr3> "-" <right:Expr> => 0,
         <left:Expr3> "^" <middle:Expr3> "$" <right:Expr3> => 0, <left:Expr> "[" <middle:Expr> ";" <right:Expr> => 0, Expr3 };"#,
    ),
    good(
        "levels whose alternatives call a macro",
        r#"Expr = { #[precedence(level="1")] "const" => 0,
         #[precedence(level="2")] #[assoc(side="left")] MacroOp<OpTimes, Expr, Expr> => 0,
         #[precedence(level="3")] #[assoc(side="right")] MacroOp<OpPlus, Expr, Expr> => 0 };
         MacroOp<Op, RuleLeft, RuleRight> = <left:RuleLeft> <op:Op> <right:RuleRight> => 0;
         OpTimes = "*" => (); OpPlus = "+" => (); Ext = Expr;"#,
    ),
    good(
        "levels whose alternatives call a macro: behind",
        r#"Expr1 = "const" => 0;
         Expr2 = { MacroOp<OpTimes, Expr2, Expr1> => 0, Expr1 };
         Expr = { MacroOp<OpPlus, Expr2, Expr> => 0, Expr2 };
         MacroOp<Op, RuleLeft, RuleRight> = <left:RuleLeft> <op:Op> <right:RuleRight> => 0;
         OpTimes = "*" => (); OpPlus = "+" => (); Ext = Expr;"#,
    ),
    good(
        "a calculator, its key another word",
        r#"Expr = { #[precedence(lvl="0")] Num, "(" <Expr> ")",
         #[precedence(lvl="1")] #[assoc(side="left")] <l:Expr> "*" <r:Expr> => l * r, <l:Expr> "/" <r:Expr> => l / r,
         #[precedence(lvl="2")] #[assoc(side="left")] <l:Expr> "+" <r:Expr> => l + r, <l:Expr> "-" <r:Expr> => l - r };
         Num = r"[0-9]+" => i32::from_str(<>).unwrap();"#,
    ),
    good(
        "a calculator: behind",
        r#"Expr0 = { Num, "(" <Expr0> ")" };
         Expr1 = { <l:Expr1> "*" <r:Expr0> => l * r, <l:Expr1> "/" <r:Expr0> => l / r, Expr0 };
         Expr = { <l:Expr> "+" <r:Expr1> => l + r, <l:Expr> "-" <r:Expr1> => l - r, Expr1 };
         Num = r"[0-9]+" => i32::from_str(<>).unwrap();"#,
    ),
];

pub static MACRO_EXPAND: [Known; 3] = [
    good(
        "a list with commas: a macro, a starred group, a question mark",
        r#"Comma<E> = <v:(<E> ",")*> <e:E?> => v.into_iter().chain(e.into_iter()).collect();
         Ids = Comma<"Id">;"#,
    ),
    // two alternatives, with regex conditions, are left out
    good(
        "conditions on an argument",
        r#"Expr<E> = { "A" if E == "A*C", "C" if E != "A*C" };
         Expr1 = Expr<"A*C">; Expr2 = Expr<"AAC">; Expr3 = Expr<"ABC">;"#,
    ),
    good("lookahead alone", "Expr = @L;"),
];
