//! `reading`'s tree to LALRPOP's and back, nothing lost. Each 30 becomes an extern item with one bare conversion, each 31 a match item
//! with one mapping to a bare terminal.
use crate::grammar::parse_tree::*;
use crate::grammar::pattern::Pattern;
use crate::leaves;
use crate::DefaultAtom as Atom;
use reading::tree::{self, Action, Item, Kind, Repeat, Stage};

// ---- to LALRPOP's tree

pub fn to_grammar(stage: &Stage) -> Grammar {
    grammar(stage.items.iter().map(item).collect())
}

/// A grammar of these items and nothing else.
pub fn grammar(items: Vec<GrammarItem>) -> Grammar {
    Grammar {
        prefix: String::new(),
        span: Span(0, 0),
        type_parameters: vec![],
        parameters: vec![],
        where_clauses: vec![],
        items,
        attributes: vec![],
        module_attributes: vec![],
    }
}

fn span(span: tree::Span) -> Span {
    Span(span.0 as usize, span.1 as usize)
}

pub fn nonterminal_string(name: &str) -> NonterminalString {
    NonterminalString(Atom::from(name))
}

pub fn attribute(id: &str, arg: AttributeArg) -> Attribute {
    Attribute { id_span: Span(0, 0), id: Atom::from(id), arg }
}

fn item(item: &Item) -> GrammarItem {
    match item {
        Item::Nonterminal(data) => GrammarItem::Nonterminal(nonterminal(data)),
        Item::Extern(place, name) => GrammarItem::ExternToken(extern_token(span(*place), name)),
        Item::Match(place, name) => GrammarItem::MatchToken(match_token(span(*place), name)),
    }
}

pub fn extern_token(span: Span, name: &str) -> ExternToken {
    let (from, unit) = (TerminalString::Bare(Atom::from(name)), TypeRef::Tuple(vec![]));
    let conversion = Conversion { span, attributes: vec![], from, to: Pattern(unit.clone()) };
    let token = EnumToken { type_name: unit, type_span: span, conversions: vec![conversion] };
    ExternToken { span, associated_types: vec![], enum_token: Some(token) }
}

pub fn match_token(span: Span, name: &str) -> MatchToken {
    let to = MatchMapping::Terminal(TerminalString::Bare(Atom::from(name)));
    let mapped = MatchItem::Mapped(TerminalLiteral::Quoted(Atom::from("")), to, span);
    MatchToken::new(MatchContents { items: vec![mapped] }, span)
}

fn nonterminal(data: &tree::Nonterminal) -> NonterminalData {
    let inline = data.inline.then(|| attribute("inline", AttributeArg::Empty));
    NonterminalData {
        visibility: if data.public { Visibility::Pub(None) } else { Visibility::Priv },
        name: nonterminal_string(&data.name),
        attributes: inline.into_iter().collect(),
        span: span(data.span),
        args: data.args.iter().map(|name| nonterminal_string(name)).collect(),
        type_decl: None,
        alternatives: data.alternatives.iter().map(alternative).collect(),
    }
}

fn alternative(data: &tree::Alternative) -> Alternative {
    Alternative {
        span: span(data.span),
        expr: expression(&data.symbols),
        condition: data.condition.as_ref().map(condition),
        action: match &data.action {
            Action::None => None,
            Action::User(text) => Some(ActionKind::User(text.clone())),
            Action::Fallible(text) => Some(ActionKind::Fallible(text.clone())),
            Action::Lookahead => Some(ActionKind::Lookahead),
            Action::Lookbehind => Some(ActionKind::Lookbehind),
        },
        attributes: data.attributes.iter().map(annotation).collect(),
    }
}

fn condition(data: &tree::Condition) -> Condition {
    Condition {
        span: span(data.span),
        lhs: nonterminal_string(&data.lhs),
        rhs: Atom::from(data.rhs.as_str()),
        op: if data.equals { ConditionOp::Equals } else { ConditionOp::NotEquals },
    }
}

fn annotation(data: &tree::Attribute) -> Attribute {
    let arg = match &data.equal {
        None => AttributeArg::Empty,
        Some((key, value)) => AttributeArg::Paren(vec![attribute(key, AttributeArg::Equal(value.clone()))]),
    };
    attribute(&data.id, arg)
}

fn expression(symbols: &[tree::Symbol]) -> ExprSymbol {
    ExprSymbol { symbols: symbols.iter().map(symbol).collect() }
}

fn symbol(data: &tree::Symbol) -> Symbol {
    let atom = |text: &String| Atom::from(text.as_str());
    let kind = match &data.kind {
        Kind::Ambiguous(name) => SymbolKind::AmbiguousId(atom(name)),
        Kind::Bare(name) => SymbolKind::Terminal(TerminalString::Bare(atom(name))),
        Kind::Quoted(text) => SymbolKind::Terminal(TerminalString::quoted(atom(text))),
        Kind::Regex(text) => SymbolKind::Terminal(TerminalString::regex(atom(text))),
        Kind::Nonterminal(name) => SymbolKind::Nonterminal(nonterminal_string(name)),
        Kind::Macro(name, args) => {
            SymbolKind::Macro(MacroSymbol { name: nonterminal_string(name), args: args.iter().map(symbol).collect() })
        }
        Kind::Repeat(op, inner) => SymbolKind::Repeat(Box::new(RepeatSymbol { op: repeat_op(*op), symbol: symbol(inner) })),
        Kind::Choose(inner) => SymbolKind::Choose(Box::new(symbol(inner))),
        Kind::Name { mutable, name, inner } => SymbolKind::Name(Name::new(*mutable, atom(name)), Box::new(symbol(inner))),
        Kind::Group(symbols) => SymbolKind::Expr(expression(symbols)),
        Kind::Lookahead => SymbolKind::Lookahead,
        Kind::Lookbehind => SymbolKind::Lookbehind,
        Kind::Error => SymbolKind::Error,
    };
    Symbol { span: span(data.span), kind }
}

fn repeat_op(op: Repeat) -> RepeatOp {
    match op {
        Repeat::Star => RepeatOp::Star,
        Repeat::Plus => RepeatOp::Plus,
        Repeat::Question => RepeatOp::Question,
    }
}

// ---- and back

/// The tree over these atoms. What the tape can't carry is a fault of the caller's.
pub fn from_grammar(grammar: &Grammar, atoms: Vec<Vec<u8>>) -> Stage {
    Stage { atoms, items: grammar.items.iter().map(item_back).collect() }
}

fn span_back(span: Span) -> tree::Span {
    let half = |place: usize| u32::try_from(place).expect("a span of 32-bit numbers");
    tree::Span(half(span.0), half(span.1))
}

fn item_back(item: &GrammarItem) -> Item {
    match item {
        GrammarItem::Nonterminal(data) => Item::Nonterminal(nonterminal_back(data)),
        GrammarItem::ExternToken(token) => {
            let conversions = &token.enum_token.as_ref().expect("an enum").conversions;
            let [Conversion { span, from: TerminalString::Bare(name), .. }] = conversions.as_slice() else {
                panic!("not one bare conversion")
            };
            Item::Extern(span_back(*span), name.to_string())
        }
        GrammarItem::MatchToken(token) => {
            let items: Vec<&MatchItem> = token.contents.iter().flat_map(|contents| &contents.items).collect();
            let [MatchItem::Mapped(_, MatchMapping::Terminal(TerminalString::Bare(name)), span)] = items[..] else {
                panic!("not one bare mapping")
            };
            Item::Match(span_back(*span), name.to_string())
        }
        _ => panic!("an item that the tape doesn't carry"),
    }
}

fn nonterminal_back(data: &NonterminalData) -> tree::Nonterminal {
    tree::Nonterminal {
        span: span_back(data.span),
        name: data.name.to_string(),
        inline: data.attributes.iter().any(|attribute| attribute.id == *"inline"),
        public: data.visibility.is_pub(),
        args: data.args.iter().map(|name| name.to_string()).collect(),
        alternatives: data.alternatives.iter().map(alternative_back).collect(),
    }
}

fn alternative_back(data: &Alternative) -> tree::Alternative {
    tree::Alternative {
        span: span_back(data.span),
        attributes: data.attributes.iter().map(annotation_back).collect(),
        condition: data.condition.as_ref().map(condition_back),
        action: leaves::action(&data.action),
        symbols: data.expr.symbols.iter().map(symbol_back).collect(),
    }
}

fn annotation_back(data: &Attribute) -> tree::Attribute {
    let equal = data.get_arg_equal().map(|(key, value)| (key.to_string(), value.clone()));
    tree::Attribute { id: data.id.to_string(), equal }
}

fn condition_back(data: &Condition) -> tree::Condition {
    let equals = match data.op {
        ConditionOp::Equals => true,
        ConditionOp::NotEquals => false,
        _ => panic!("a condition that the tape doesn't carry"),
    };
    tree::Condition { span: span_back(data.span), lhs: data.lhs.to_string(), equals, rhs: data.rhs.to_string() }
}

fn symbol_back(data: &Symbol) -> tree::Symbol {
    let boxed = |symbol: &Symbol| Box::new(symbol_back(symbol));
    let list = |symbols: &[Symbol]| symbols.iter().map(symbol_back).collect();
    let kind = match &data.kind {
        SymbolKind::AmbiguousId(name) => Kind::Ambiguous(name.to_string()),
        SymbolKind::Terminal(terminal) => leaves::terminal(terminal),
        SymbolKind::Nonterminal(name) => Kind::Nonterminal(name.to_string()),
        SymbolKind::Macro(call) => Kind::Macro(call.name.to_string(), list(&call.args)),
        SymbolKind::Repeat(repeat) => Kind::Repeat(leaves::repeat(&repeat.op), boxed(&repeat.symbol)),
        SymbolKind::Choose(inner) => Kind::Choose(boxed(inner)),
        SymbolKind::Name(name, inner) => Kind::Name { mutable: name.mutable, name: name.name.to_string(), inner: boxed(inner) },
        SymbolKind::Expr(expr) => Kind::Group(list(&expr.symbols)),
        SymbolKind::Lookahead => Kind::Lookahead,
        SymbolKind::Lookbehind => Kind::Lookbehind,
        SymbolKind::Error => Kind::Error,
        SymbolKind::Tuple(..) => panic!("a symbol that the tape doesn't carry"),
    };
    tree::Symbol { span: span_back(data.span), kind }
}
