//! Printed forms, and document 01's listing of a tree.
use crate::tree::*;

/// A symbol as it is printed, which is the name of its item once it is expanded.
pub fn printed(symbol: &Symbol) -> String {
    match &symbol.kind {
        Kind::Ambiguous(name) | Kind::Bare(name) | Kind::Nonterminal(name) => name.clone(),
        Kind::Quoted(text) => quoted(text),
        Kind::Regex(text) => format!("r#{}#", quoted(text)),
        Kind::Macro(name, args) => format!("{name}<{}>", list(args, ", ")),
        Kind::Repeat(op, inner) => format!("{}{}", printed(inner), ["*", "+", "?"][*op as usize]),
        Kind::Choose(inner) => format!("<{}>", printed(inner)),
        Kind::Name { mutable, name, inner } => format!("{}{name}:{}", if *mutable { "mut " } else { "" }, printed(inner)),
        Kind::Group(symbols) => format!("({})", list(symbols, " ")),
        Kind::Lookahead => "@L".to_string(),
        Kind::Lookbehind => "@R".to_string(),
        Kind::Error => "error".to_string(),
    }
}

fn list(symbols: &[Symbol], between: &str) -> String {
    symbols.iter().map(printed).collect::<Vec<_>>().join(between)
}

fn quoted(text: &str) -> String {
    format!("\"{}\"", text.replace('\\', "\\\\").replace('"', "\\\""))
}

/// Name, span and flags of each nonterminal, then its alternatives; terminals are not listed.
pub fn listing(items: &[Item]) -> String {
    items.iter().map(|item| if let Item::Nonterminal(data) = item { nonterminal(data) } else { String::new() }).collect()
}

fn nonterminal(data: &Nonterminal) -> String {
    let flags = [if data.public { " pub" } else { "" }, if data.inline { " inline" } else { "" }].concat();
    let alternatives: String = data.alternatives.iter().map(alternative).collect();
    format!("{} {}-{}{flags}\n{alternatives}", data.name, data.span.0, data.span.1)
}

fn alternative(data: &Alternative) -> String {
    let action = match &data.action {
        Action::None => String::new(),
        Action::User(text) => format!(" => {text}"),
        Action::Fallible(text) => format!(" =>? {text}"),
        Action::Lookahead => " => @L".to_string(),
        Action::Lookbehind => " => @R".to_string(),
    };
    format!("  {}{action}\n", list(&data.symbols, " "))
}
