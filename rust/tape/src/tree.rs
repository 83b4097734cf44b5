//! The parse tree that a tape carries. Texts that a command uses are ASCII; the atoms of a tape may hold any bytes.

/// From the first byte to behind the last one, in the grammar's text. A tape may hold any two numbers.
#[derive(Clone, Copy, Debug, Default, PartialEq, Eq)]
pub struct Span(pub u32, pub u32);

/// Atoms in their order, used or not, and the items.
#[derive(Clone, Debug, Default, PartialEq, Eq)]
pub struct Stage {
    /// The texts that a tape begins with. Texts of the items need not be among them.
    pub atoms: Vec<Vec<u8>>,
    /// Nonterminals and terminals, in any order.
    pub items: Vec<Item>,
}

/// What a grammar declares.
#[derive(Clone, Debug, PartialEq, Eq)]
pub enum Item {
    /// Command 10.
    Nonterminal(Nonterminal),
    /// Command 30: a bare terminal of an `extern` block.
    Extern(Span, String),
    /// Command 31: a bare terminal of a `match` block.
    Match(Span, String),
}

/// A nonterminal, or a macro where it has arguments.
#[derive(Clone, Debug, PartialEq, Eq)]
pub struct Nonterminal {
    /// The name's, and its arguments'.
    pub span: Span,
    /// What it is called by.
    pub name: String,
    /// `#[inline]` is before it.
    pub inline: bool,
    /// `pub` is before it.
    pub public: bool,
    /// Names of a macro's arguments (command 11).
    pub args: Vec<String>,
    /// In their order.
    pub alternatives: Vec<Alternative>,
}

/// One way to derive a nonterminal (command 12).
#[derive(Clone, Debug, PartialEq, Eq)]
pub struct Alternative {
    /// What stands behind its attributes, to the end of its action.
    pub span: Span,
    /// In their order.
    pub attributes: Vec<Attribute>,
    /// When it is there at all; in macros only.
    pub condition: Option<Condition>,
    /// What is done with what was derived.
    pub action: Action,
    /// What it derives, one after another.
    pub symbols: Vec<Symbol>,
}

/// What stands behind an alternative's symbols.
#[derive(Clone, Debug, PartialEq, Eq)]
pub enum Action {
    /// Nothing.
    None,
    /// `=> code`
    User(String),
    /// `=>? code`
    Fallible(String),
    /// `=>@L`
    Lookahead,
    /// `=>@R`
    Lookbehind,
}

/// `#[id]` or `#[id(key = "value")]` (command 13).
#[derive(Clone, Debug, PartialEq, Eq)]
pub struct Attribute {
    /// Which attribute it is.
    pub id: String,
    /// Key and value, where `get_arg_equal` answers something.
    pub equal: Option<(String, String)>,
}

/// `if lhs == "rhs"` or `if lhs != "rhs"` (command 14).
#[derive(Clone, Debug, PartialEq, Eq)]
pub struct Condition {
    /// From the left side to the right one.
    pub span: Span,
    /// An argument of the macro.
    pub lhs: String,
    /// `==`, not `!=`.
    pub equals: bool,
    /// The quoted literal that the argument is compared with.
    pub rhs: String,
}

/// A symbol and where it stands.
#[derive(Clone, Debug, PartialEq, Eq)]
pub struct Symbol {
    /// The whole symbol, with all that is inside.
    pub span: Span,
    /// What it is.
    pub kind: Kind,
}

/// How often a repeated symbol stands there.
#[derive(Clone, Copy, Debug, PartialEq, Eq)]
pub enum Repeat {
    /// `*`
    Star,
    /// `+`
    Plus,
    /// `?`
    Question,
}

/// The kinds of symbols: commands 20 to 2c, in this order.
#[derive(Clone, Debug, PartialEq, Eq)]
pub enum Kind {
    /// A name that is not yet resolved.
    Ambiguous(String),
    /// A terminal by its name.
    Bare(String),
    /// `"text"`, without quotes and escapes.
    Quoted(String),
    /// `r"text"`, without `r` and quotes.
    Regex(String),
    /// A nonterminal, or an argument of the macro that it stands in.
    Nonterminal(String),
    /// `Name<A, B>`; a tape carries no call without arguments.
    Macro(String, Vec<Symbol>),
    /// `A*`, `A+`, `A?`
    Repeat(Repeat, Box<Symbol>),
    /// `<A>`
    Choose(Box<Symbol>),
    /// `<name:A>`, `<mut name:A>`
    Name {
        /// `mut` is before the name.
        mutable: bool,
        /// What the action calls it.
        name: String,
        /// The symbol that has the name.
        inner: Box<Symbol>,
    },
    /// `(A B)`
    Group(Vec<Symbol>),
    /// `@L`
    Lookahead,
    /// `@R`
    Lookbehind,
    /// `!`
    Error,
}

impl Kind {
    /// The symbols straight inside.
    ///
    /// ```
    /// let stage = tape::lalrpop::parse("grammar; A = (B C)?;").unwrap();
    /// let [tape::tree::Item::Nonterminal(a)] = &stage.items[..] else { panic!("A is a nonterminal") };
    /// let [repeat] = &a.alternatives[0].symbols[..] else { panic!("one symbol") };
    /// let [group] = repeat.kind.inner() else { panic!("one group") };
    /// assert_eq!(group.kind.inner().len(), 2);
    /// ```
    pub fn inner(&self) -> &[Symbol] {
        match self {
            Kind::Macro(_, symbols) | Kind::Group(symbols) => symbols,
            Kind::Repeat(_, inner) | Kind::Choose(inner) | Kind::Name { inner, .. } => std::slice::from_ref(inner),
            _ => &[],
        }
    }

    /// The same, to be changed.
    ///
    /// ```
    /// let mut choice = tape::tree::Symbol::name("A").chosen();
    /// choice.kind.inner_mut()[0].span = tape::tree::Span(3, 4);
    /// assert_eq!(choice, tape::tree::Symbol::name("A").at(tape::tree::Span(3, 4)).chosen());
    /// ```
    pub fn inner_mut(&mut self) -> &mut [Symbol] {
        match self {
            Kind::Macro(_, symbols) | Kind::Group(symbols) => symbols,
            Kind::Repeat(_, inner) | Kind::Choose(inner) | Kind::Name { inner, .. } => std::slice::from_mut(inner),
            _ => &mut [],
        }
    }
}
