//! The parse tree of LALRPOP 0.19.8 as the tree of a tape, types and patterns left out.
use crate::grammar::parse_tree::*;
use crate::leaves;
use tape::tree::{self, Item, Kind, Stage};

type Carried<T> = Result<T, String>;

pub fn stage(grammar: &Grammar) -> Carried<Stage> {
    let items: Vec<Vec<Item>> = grammar.items.iter().map(items).collect::<Carried<_>>()?;
    Ok(Stage::new(items.concat()))
}

/// One nonterminal, or all bare terminals of a block.
fn items(item: &GrammarItem) -> Carried<Vec<Item>> {
    Ok(match item {
        GrammarItem::Nonterminal(data) => vec![Item::Nonterminal(nonterminal(data)?)],
        GrammarItem::ExternToken(token) => token.enum_token.iter().flat_map(|token| &token.conversions).filter_map(declared).collect(),
        GrammarItem::MatchToken(token) => token.contents.iter().flat_map(|contents| &contents.items).filter_map(mapped).collect(),
        GrammarItem::Use(_) => vec![],
        GrammarItem::InternToken(_) => return Err("an intern token".into()),
    })
}

fn declared(conversion: &Conversion) -> Option<Item> {
    match &conversion.from {
        TerminalString::Bare(name) => Some(Item::Extern(span(conversion.span), name.to_string())),
        _ => None,
    }
}

fn mapped(item: &MatchItem) -> Option<Item> {
    match item {
        MatchItem::Mapped(_, MatchMapping::Terminal(TerminalString::Bare(name)), place) => {
            Some(Item::Match(span(*place), name.to_string()))
        }
        _ => None,
    }
}

fn span(span: Span) -> tree::Span {
    tree::Span(span.0 as u32, span.1 as u32)
}

fn nonterminal(data: &NonterminalData) -> Carried<tree::Nonterminal> {
    let is_inline = |annotation: &&Annotation| &*annotation.id == "inline" && annotation.arg.is_none();
    if let Some(other) = data.annotations.iter().find(|annotation| !is_inline(annotation)) {
        return Err(format!("the attribute `{}` of a nonterminal", other.id));
    }
    Ok(tree::Nonterminal {
        span: span(data.span),
        name: data.name.to_string(),
        inline: !data.annotations.is_empty(),
        public: data.visibility.is_pub(),
        args: data.args.iter().map(|name| name.to_string()).collect(),
        alternatives: data.alternatives.iter().map(alternative).collect::<Carried<_>>()?,
    })
}

fn alternative(data: &Alternative) -> Carried<tree::Alternative> {
    let attribute = |annotation: &Annotation| tree::Attribute {
        id: annotation.id.to_string(),
        equal: annotation.arg.as_ref().map(|(key, value)| (key.to_string(), value.clone())),
    };
    Ok(tree::Alternative {
        span: span(data.span),
        attributes: data.annotations.iter().map(attribute).collect(),
        condition: data.condition.as_ref().map(condition).transpose()?,
        action: leaves::action(&data.action),
        symbols: data.expr.symbols.iter().map(symbol).collect(),
    })
}

fn condition(data: &Condition) -> Carried<tree::Condition> {
    let equals = match data.op {
        ConditionOp::Equals => true,
        ConditionOp::NotEquals => false,
        ConditionOp::Match | ConditionOp::NotMatch => return Err("a condition with a regex".into()),
    };
    Ok(tree::Condition { span: span(data.span), lhs: data.lhs.to_string(), equals, rhs: data.rhs.to_string() })
}

fn symbol(data: &Symbol) -> tree::Symbol {
    let boxed = |inner: &Symbol| Box::new(symbol(inner));
    let kind = match &data.kind {
        SymbolKind::AmbiguousId(name) => Kind::Ambiguous(name.to_string()),
        SymbolKind::Terminal(terminal) => leaves::terminal(terminal),
        SymbolKind::Nonterminal(name) => Kind::Nonterminal(name.to_string()),
        SymbolKind::Macro(call) => Kind::Macro(call.name.to_string(), call.args.iter().map(symbol).collect()),
        SymbolKind::Repeat(repeat) => Kind::Repeat(leaves::repeat(&repeat.op), boxed(&repeat.symbol)),
        SymbolKind::Choose(inner) => Kind::Choose(boxed(inner)),
        SymbolKind::Name(name, inner) => Kind::Name { mutable: name.mutable, name: name.name.to_string(), inner: boxed(inner) },
        SymbolKind::Expr(expr) => Kind::Group(expr.symbols.iter().map(symbol).collect()),
        SymbolKind::Lookahead => Kind::Lookahead,
        SymbolKind::Lookbehind => Kind::Lookbehind,
        SymbolKind::Error => Kind::Error,
    };
    tree::Symbol { span: span(data.span), kind }
}
