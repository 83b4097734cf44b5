//! Grammars of any number of nonterminals, made like grammar files: a macro or two, expressions with levels, items, lists and terminals.
use reading::parse;
use reading::tree::Stage;

/// The numbers of nonterminals that are measured.
pub const SIZES: [usize; 5] = [2, 8, 32, 128, 2_048];

const HEADS: [&str; 16] = [
    "Function", "Struct", "Enum", "Trait", "Impl", "Module", "Pattern", "Type", "Path", "Block", "Match", "Loop", "Use", "Const",
    "Generic", "Where",
];
const TAILS: [&str; 8] = ["Item", "Body", "List", "Head", "Clause", "Member", "Argument", "Bound"];
const ENDS: [&str; 16] =
    ["", "Decl", "Opt", "Inner", "Outer", "Ref", "Mut", "Attr", "Stmt", "Init", "Tail", "Group", "Entry", "Alias", "Label", "Scope"];
const WORDS: [&str; 32] = [
    "ident",
    "number",
    "string",
    "lifetime",
    "kw_let",
    "kw_fn",
    "kw_if",
    "kw_else",
    "kw_while",
    "kw_for",
    "kw_in",
    "kw_return",
    "kw_struct",
    "kw_enum",
    "kw_trait",
    "kw_impl",
    "kw_use",
    "kw_mod",
    "kw_pub",
    "kw_const",
    "kw_static",
    "kw_match",
    "kw_loop",
    "kw_break",
    "kw_where",
    "kw_as",
    "kw_ref",
    "kw_move",
    "kw_async",
    "kw_await",
    "kw_dyn",
    "char_literal",
];
const SIGNS: [&str; 12] = ["=", "->", "=>", ":", "::", ".", "..", "&", "|", "#", "?", "@"];

/// The tree of a grammar of so many nonterminals, the macros among them.
pub fn grammar(nonterminals: usize) -> Stage {
    parse(&text(nonterminals))
}

/// The grammar's items: extern terminals, then the nonterminals.
pub fn text(nonterminals: usize) -> String {
    let grammar = Grammar { nonterminals };
    let externs: String = WORDS[..grammar.words()].iter().map(|word| format!("{word} => Token::{word}, ")).collect();
    let items = (0..nonterminals).map(|k| grammar.nonterminal(k));
    std::iter::once(format!("extern {{ enum Token {{ {externs}}} }}\n")).chain(items).collect()
}

struct Grammar {
    nonterminals: usize,
}

impl Grammar {
    /// How many extern terminals there are.
    fn words(&self) -> usize {
        (2 + self.nonterminals / 4).min(WORDS.len())
    }

    fn word(&self, k: usize) -> &'static str {
        WORDS[k % self.words()]
    }

    /// The name of the k-th nonterminal.
    fn name(&self, k: usize) -> String {
        match k {
            0 => "Comma".into(),
            1 => "Expr".into(),
            2 => "Sep".into(),
            _ => [HEADS[k % 16], TAILS[k / 16 % 8], ENDS[k / 128 % 16]].concat(),
        }
    }

    /// A nonterminal without arguments: one near the k-th, so that what is named again is often named close by.
    fn other(&self, k: usize, step: usize) -> String {
        match self.nonterminals {
            0..=3 => self.name(1),
            count => self.name(3 + (k + step * step) % (count - 3)),
        }
    }

    fn nonterminal(&self, k: usize) -> String {
        match (k, k % 8) {
            (0, _) => list_macro(),
            (2, _) => separated_macro(),
            (_, 0) => self.statement(k),
            (_, 1) => self.levels(k),
            (_, 2) => self.located(k),
            (_, 3) => self.item(k),
            (_, 4) => self.list(k),
            (_, 5) => self.choice(k),
            (_, 6) => self.optional(k),
            _ => self.literal(k),
        }
    }

    /// An expression of four levels.
    fn levels(&self, k: usize) -> String {
        let (name, word) = (self.name(k), self.word(k));
        let binary =
            |sign: &str, make: &str| format!("<left:{name}> \"{sign}\" <right:{name}> => Expr::{make}(Box::new(left), Box::new(right))");
        let (times, plus, equal) = (binary("*", "Times"), binary("+", "Plus"), binary("==", "Equal"));
        format!(
            "pub {name} = {{ #[precedence(level=\"0\")] {word} => Expr::Name(<>), \"(\" <{name}> \")\", \
             #[precedence(level=\"1\")] #[assoc(side=\"left\")] {times}, \
             #[precedence(level=\"2\")] #[assoc(side=\"left\")] {plus}, \
             #[precedence(level=\"3\")] #[assoc(side=\"none\")] {equal} }};\n"
        )
    }

    /// A statement with a word and a sign of its own, and a fallible action.
    fn statement(&self, k: usize) -> String {
        let (name, word, sign) = (self.name(k), self.word(k + 4), SIGNS[k / 8 % 12]);
        let (left, right) = (self.other(k, 1), self.other(k, 2));
        format!(
            "{name} = {{ {word} <target:{left}> \"{sign}\" <value:{right}> \";\" =>? Statement::checked_{sure}(state, target, value), \
             {word} <fault:!> \";\" => Statement::Recovered(fault) }};\n",
            sure = name.to_lowercase()
        )
    }

    /// A nonterminal between its two places, inline.
    fn located(&self, k: usize) -> String {
        let (name, inner) = (self.name(k), self.other(k, 3));
        format!("#[inline] {name} = <start:@L> <node:{inner}> <end:@R> => Spanned::new(start as u32, end as u32, node);\n")
    }

    /// An item of named parts, whose action uses them all.
    fn item(&self, k: usize) -> String {
        let (name, word, body, kind) = (self.name(k), self.word(k + 7), self.other(k, 2), self.other(k, 4));
        format!(
            "pub {name} = <attributes:{kind}*> {word} <name:ident> <mut body:{body}> \";\" \
             => ast::{name}::new(arena, attributes, name, body.finish());\n"
        )
    }

    /// Lists by the macros.
    fn list(&self, k: usize) -> String {
        let (name, first, second) = (self.name(k), self.other(k, 1), self.other(k, 3));
        format!("{name} = {{ \"(\" <Comma<{first}>> \")\" => List::of(<>), \"[\" <Sep<{second}, \";\">> \"]\" }};\n")
    }

    /// One of several nonterminals.
    fn choice(&self, k: usize) -> String {
        let (name, first, second, third) = (self.name(k), self.other(k, 1), self.other(k, 2), self.other(k, 5));
        format!("{name} = {{ <{first}>, {second} => {name}::{second}(<>), {third} => {name}::{third}(<>) }};\n")
    }

    /// Groups under repeats, and what may be missing.
    fn optional(&self, k: usize) -> String {
        let (name, word, first, second) = (self.name(k), self.word(k), self.other(k, 2), self.other(k, 3));
        let sign = SIGNS[k / 8 % 12];
        format!(
            "{name} = <first:{first}> <rest:(\"{sign}\" <{second}>)+> <last:({word} <{first}>)?> \
             => rest.into_iter().fold(first, |tree, next| tree.join(next, last));\n"
        )
    }

    /// Terminals by a regex and by their texts.
    fn literal(&self, k: usize) -> String {
        let (name, word) = (self.name(k), self.word(k + 1));
        let regex = ["[0-9]+", "0x[0-9a-fA-F_]+", "[a-zA-Z_][a-zA-Z0-9_]*", "//[^\\n]*"][k / 8 % 4];
        format!(
            "{name} = {{ r\"{regex}\" =>? Literal::parse(<>).map_err(|error| error.at(\"{name}\")), \
             \"true\" => Literal::True, {word} }};\n"
        )
    }
}

/// Any number of T, commas between them.
fn list_macro() -> String {
    "Comma<T> = <mut all:(<T> \",\")*> <last:T?> => all.joined_with(last);\n".into()
}

/// At least one T, so separated; where that is a semicolon, one may stand behind the last.
fn separated_macro() -> String {
    "Sep<T, S> = { <first:T> <rest:(S <T>)*> => vec(first, rest), \
     <first:T> <rest:(S <T>)*> S if S == \";\" => vec(first, rest) };\n"
        .into()
}

#[cfg(test)]
mod tests {
    use super::*;
    use crate::subject::Subject;
    use reading::tree::Item;

    #[test]
    fn they_are_accepted_and_have_so_many_nonterminals() {
        for size in SIZES {
            let found = grammar(size).items.iter().filter(|item| matches!(item, Item::Nonterminal(_))).count();
            assert_eq!(found, size);
            let subject = Subject::of_grammar(size);
            assert_eq!(subject.tree().len(), subject.tape.len());
        }
    }

    /// All commands but the bare and resolved names, which no grammar file has, and match terminals.
    #[test]
    fn they_use_what_grammar_files_use() {
        let text = text(128);
        let used =
            ["#[precedence", "#[assoc", "Comma<", "Sep<", "extern ", "#[inline] ", "pub ", "mut ", " if ", "@L", "@R", "!", "r\"", "=>?"];
        assert_eq!(used.into_iter().find(|part| !text.contains(part)), None);
    }
}
