//! Short ways to put a tree together. Each part stands at 0 to 0 until `at` says where.
use crate::tree::*;

/// ```
/// use tape::tree::{Alternative, Item, Nonterminal, Repeat, Span, Stage, Symbol};
///
/// let term = Nonterminal::new("Term").alternative(Alternative::new([Symbol::quoted("bay"), Symbol::name("number")]));
/// let list = Alternative::new([Symbol::name("Term").repeated(Repeat::Plus)]);
/// let query = Nonterminal::new("Query").public().alternative(list);
/// let stage = Stage::new([query.into(), term.into(), Item::external("number").at(Span(70, 76))]);
///
/// let text = r#"grammar; pub Query = Term+; Term = "bay" number; extern { enum T { number => N } }"#;
/// let parsed = tape::lalrpop::parse(text).unwrap();
/// assert_eq!(tape::write(&stage).len(), tape::write(&parsed).len());
/// ```
impl Stage {
    /// These items over no atoms: [`write`](crate::write()) makes them.
    pub fn new(items: impl IntoIterator<Item = Item>) -> Stage {
        Stage { atoms: vec![], items: items.into_iter().collect() }
    }
}

impl From<Nonterminal> for Item {
    fn from(data: Nonterminal) -> Item {
        Item::Nonterminal(data)
    }
}

/// ```
/// use tape::tree::{Item, Span};
///
/// assert_eq!(Item::external("n").at(Span(3, 4)), Item::Extern(Span(3, 4), "n".into()));
/// assert_eq!(Item::matched("n"), Item::Match(Span(0, 0), "n".into()));
/// ```
impl Item {
    /// A bare terminal of an `extern` block.
    pub fn external(name: impl Into<String>) -> Item {
        Item::Extern(Span::default(), name.into())
    }

    /// A bare terminal of a `match` block.
    pub fn matched(name: impl Into<String>) -> Item {
        Item::Match(Span::default(), name.into())
    }

    /// The same elsewhere.
    pub fn at(self, place: Span) -> Item {
        match self {
            Item::Nonterminal(data) => Item::Nonterminal(data.at(place)),
            Item::Extern(_, name) => Item::Extern(place, name),
            Item::Match(_, name) => Item::Match(place, name),
        }
    }
}

/// ```
/// use tape::tree::{Alternative, Nonterminal, Span, Symbol};
///
/// let either = [Alternative::new([Symbol::name("T")]), Alternative::new([])];
/// let maybe = Nonterminal::new("Maybe").public().inline().arg("T").alternatives(either).at(Span(9, 17));
/// assert!(maybe.public && maybe.inline);
/// assert_eq!((maybe.args.len(), maybe.alternatives.len(), maybe.span), (1, 2, Span(9, 17)));
/// assert_eq!(maybe.alternative(Alternative::new([])).alternatives.len(), 3);
/// ```
impl Nonterminal {
    /// Without flags, arguments and alternatives.
    pub fn new(name: impl Into<String>) -> Nonterminal {
        Nonterminal { span: Span::default(), name: name.into(), inline: false, public: false, args: vec![], alternatives: vec![] }
    }

    /// With `pub`.
    pub fn public(self) -> Nonterminal {
        Nonterminal { public: true, ..self }
    }

    /// With `#[inline]`.
    pub fn inline(self) -> Nonterminal {
        Nonterminal { inline: true, ..self }
    }

    /// With one more argument, so that it is a macro.
    pub fn arg(mut self, name: impl Into<String>) -> Nonterminal {
        self.args.push(name.into());
        self
    }

    /// With one more alternative.
    pub fn alternative(mut self, alternative: Alternative) -> Nonterminal {
        self.alternatives.push(alternative);
        self
    }

    /// With these alternatives, too.
    pub fn alternatives(mut self, alternatives: impl IntoIterator<Item = Alternative>) -> Nonterminal {
        self.alternatives.extend(alternatives);
        self
    }

    /// The same elsewhere.
    pub fn at(self, place: Span) -> Nonterminal {
        Nonterminal { span: place, ..self }
    }
}

/// ```
/// use tape::tree::{Action, Alternative, Attribute, Condition, Span, Symbol};
///
/// let only = Alternative::new([Symbol::name("P")]).attribute("cfg").value("precedence", "level", "1").when("P", "x");
/// let only = only.action(Action::Fallible("f(<>)".into())).at(Span(4, 9));
/// assert_eq!(only.attributes[0], Attribute { id: "cfg".into(), equal: None });
/// assert_eq!(only.attributes[1].equal, Some(("level".into(), "1".into())));
/// assert_eq!(only.condition, Some(Condition { span: Span(0, 0), lhs: "P".into(), equals: true, rhs: "x".into() }));
/// assert!(!only.unless("P", "x").condition.unwrap().equals);
/// ```
impl Alternative {
    /// Of these symbols and nothing else.
    pub fn new(symbols: impl IntoIterator<Item = Symbol>) -> Alternative {
        let symbols = symbols.into_iter().collect();
        Alternative { span: Span::default(), attributes: vec![], condition: None, action: Action::None, symbols }
    }

    /// With one more attribute, `#[id]`.
    pub fn attribute(mut self, id: impl Into<String>) -> Alternative {
        self.attributes.push(Attribute { id: id.into(), equal: None });
        self
    }

    /// With one more attribute, `#[id(key = "value")]`.
    pub fn value(mut self, id: impl Into<String>, key: impl Into<String>, value: impl Into<String>) -> Alternative {
        self.attributes.push(Attribute { id: id.into(), equal: Some((key.into(), value.into())) });
        self
    }

    /// With `if lhs == "rhs"`.
    pub fn when(self, lhs: impl Into<String>, rhs: impl Into<String>) -> Alternative {
        let condition = Condition { span: Span::default(), lhs: lhs.into(), equals: true, rhs: rhs.into() };
        Alternative { condition: Some(condition), ..self }
    }

    /// With `if lhs != "rhs"`.
    pub fn unless(self, lhs: impl Into<String>, rhs: impl Into<String>) -> Alternative {
        let condition = Condition { span: Span::default(), lhs: lhs.into(), equals: false, rhs: rhs.into() };
        Alternative { condition: Some(condition), ..self }
    }

    /// With this action.
    pub fn action(self, action: Action) -> Alternative {
        Alternative { action, ..self }
    }

    /// The same elsewhere; its condition stays where it is.
    pub fn at(self, place: Span) -> Alternative {
        Alternative { span: place, ..self }
    }
}

/// ```
/// use tape::tree::{Item, Kind, Repeat, Span, Symbol};
///
/// let [a, b] = [Symbol::name("A"), Symbol::quoted("b")];
/// let list = Symbol::group([a.clone().chosen(), b.clone()]).repeated(Repeat::Star).named("v");
/// let call = Symbol::call("M", [a, b, Symbol::regex("[0-9]+")]).mutable("w");
/// let marks = [Symbol::lookahead(), Symbol::error(), Symbol::lookbehind()];
///
/// let stage = tape::lalrpop::parse(r#"grammar; S = <v:(<A> "b")*> <mut w:M<A, "b", r"[0-9]+">> @L ! @R;"#).unwrap();
/// let [Item::Nonterminal(s)] = &stage.items[..] else { panic!("S is a nonterminal") };
/// // the same but for their places
/// let kinds = |symbols: &[Symbol]| symbols.iter().map(|symbol| symbol.clone().nowhere()).collect::<Vec<_>>();
/// assert_eq!(kinds(&s.alternatives[0].symbols), [vec![list, call], marks.to_vec()].concat());
///
/// // what is resolved already
/// assert_eq!(Symbol::nonterminal("A").at(Span(3, 4)), Symbol { span: Span(3, 4), kind: Kind::Nonterminal("A".into()) });
/// assert_eq!(Symbol::bare("n"), Symbol::new(Kind::Bare("n".into())));
/// ```
impl Symbol {
    /// Of any kind.
    pub fn new(kind: Kind) -> Symbol {
        Symbol { span: Span::default(), kind }
    }

    /// A name that is not yet resolved.
    pub fn name(name: impl Into<String>) -> Symbol {
        Symbol::new(Kind::Ambiguous(name.into()))
    }

    /// `"text"`
    pub fn quoted(text: impl Into<String>) -> Symbol {
        Symbol::new(Kind::Quoted(text.into()))
    }

    /// `r"text"`
    pub fn regex(text: impl Into<String>) -> Symbol {
        Symbol::new(Kind::Regex(text.into()))
    }

    /// A terminal by its name, resolved.
    pub fn bare(name: impl Into<String>) -> Symbol {
        Symbol::new(Kind::Bare(name.into()))
    }

    /// A nonterminal or an argument, resolved.
    pub fn nonterminal(name: impl Into<String>) -> Symbol {
        Symbol::new(Kind::Nonterminal(name.into()))
    }

    /// `name<a, b>`
    pub fn call(name: impl Into<String>, args: impl IntoIterator<Item = Symbol>) -> Symbol {
        Symbol::new(Kind::Macro(name.into(), args.into_iter().collect()))
    }

    /// `(a b)`
    pub fn group(symbols: impl IntoIterator<Item = Symbol>) -> Symbol {
        Symbol::new(Kind::Group(symbols.into_iter().collect()))
    }

    /// `@L`
    pub fn lookahead() -> Symbol {
        Symbol::new(Kind::Lookahead)
    }

    /// `@R`
    pub fn lookbehind() -> Symbol {
        Symbol::new(Kind::Lookbehind)
    }

    /// `!`
    pub fn error() -> Symbol {
        Symbol::new(Kind::Error)
    }

    /// It with `*`, `+` or `?`.
    pub fn repeated(self, op: Repeat) -> Symbol {
        Symbol::new(Kind::Repeat(op, Box::new(self)))
    }

    /// `<it>`
    pub fn chosen(self) -> Symbol {
        Symbol::new(Kind::Choose(Box::new(self)))
    }

    /// `<name:it>`
    pub fn named(self, name: impl Into<String>) -> Symbol {
        Symbol::new(Kind::Name { mutable: false, name: name.into(), inner: Box::new(self) })
    }

    /// `<mut name:it>`
    pub fn mutable(self, name: impl Into<String>) -> Symbol {
        Symbol::new(Kind::Name { mutable: true, name: name.into(), inner: Box::new(self) })
    }

    /// The same elsewhere; the symbols inside stay where they are.
    pub fn at(self, place: Span) -> Symbol {
        Symbol { span: place, ..self }
    }

    /// The same at 0 to 0, with all that is inside.
    pub fn nowhere(mut self) -> Symbol {
        self.span = Span::default();
        for inner in self.kind.inner_mut() {
            *inner = inner.clone().nowhere();
        }
        self
    }
}

impl Item {
    /// The same at 0 to 0, with all that is inside.
    pub fn nowhere(mut self) -> Item {
        match &mut self {
            Item::Extern(span, _) | Item::Match(span, _) => *span = Span::default(),
            Item::Nonterminal(data) => {
                data.span = Span::default();
                for alternative in &mut data.alternatives {
                    alternative.span = Span::default();
                    alternative.condition.iter_mut().for_each(|condition| condition.span = Span::default());
                    alternative.symbols.iter_mut().for_each(|symbol| *symbol = symbol.clone().nowhere());
                }
            }
        }
        self
    }
}
