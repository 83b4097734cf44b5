//! A stage's tape: its atoms, then new texts by first reference in its items, then the items.
use crate::tree::*;
use std::collections::HashMap;

/// The tape of a stage whose counts and numbers are within their operands.
///
/// ```
/// use tape::tree::{Item, Span, Stage};
///
/// let stage = Stage::new([Item::Extern(Span(7, 8), "n".into())]);
/// // the atom n, then the terminal that it names
/// assert_eq!(tape::write(&stage), [0x01, 1, 0, b'n', 0x30, 7, 0, 0, 0, 8, 0, 0, 0, 0, 0]);
/// ```
pub fn write(stage: &Stage) -> Vec<u8> {
    write_over(stage).1
}

/// The same, with its atoms.
///
/// ```
/// use tape::tree::{Item, Span, Stage};
///
/// let stage = Stage { atoms: vec![b"unused".to_vec()], items: vec![Item::Extern(Span(7, 8), "n".into())] };
/// let (atoms, tape) = tape::write_over(&stage);
/// assert_eq!(atoms, [&b"unused"[..], b"n"]);
/// assert_eq!(tape, tape::write(&stage));
/// ```
pub fn write_over(stage: &Stage) -> (Vec<Vec<u8>>, Vec<u8>) {
    let mut writer = Writer::default();
    for text in &stage.atoms {
        writer.number(text);
    }
    for item in &stage.items {
        writer.item(item);
    }
    let mut tape = vec![];
    for text in &writer.atoms {
        tape.push(0x01);
        tape.extend((text.len() as u16).to_le_bytes());
        tape.extend(text);
    }
    tape.extend(writer.body);
    (writer.atoms, tape)
}

#[derive(Default)]
struct Writer {
    atoms: Vec<Vec<u8>>,
    numbers: HashMap<Vec<u8>, usize>,
    body: Vec<u8>,
}

impl Writer {
    /// The number of a text, a new one if it has none yet.
    fn number(&mut self, text: &[u8]) -> usize {
        if let Some(&number) = self.numbers.get(text) {
            return number;
        }
        self.atoms.push(text.to_vec());
        self.numbers.insert(text.to_vec(), self.atoms.len() - 1);
        self.atoms.len() - 1
    }

    fn byte(&mut self, value: usize) {
        self.body.push(value as u8);
    }

    fn half(&mut self, value: usize) {
        self.body.extend((value as u16).to_le_bytes());
    }

    fn text(&mut self, text: &str) {
        let number = self.number(text.as_bytes());
        self.half(number);
    }

    fn head(&mut self, code: u8, span: Span) {
        self.body.push(code);
        self.body.extend(span.0.to_le_bytes());
        self.body.extend(span.1.to_le_bytes());
    }

    fn item(&mut self, item: &Item) {
        match item {
            Item::Nonterminal(nonterminal) => self.nonterminal(nonterminal),
            Item::Extern(span, name) => self.named(0x30, *span, name),
            Item::Match(span, name) => self.named(0x31, *span, name),
        }
    }

    fn named(&mut self, code: u8, span: Span, name: &str) {
        self.head(code, span);
        self.text(name);
    }

    fn nonterminal(&mut self, nonterminal: &Nonterminal) {
        self.named(0x10, nonterminal.span, &nonterminal.name);
        self.byte(usize::from(nonterminal.inline) + 2 * usize::from(nonterminal.public));
        self.byte(nonterminal.args.len());
        self.half(nonterminal.alternatives.len());
        for name in &nonterminal.args {
            self.body.push(0x11);
            self.text(name);
        }
        for alternative in &nonterminal.alternatives {
            self.alternative(alternative);
        }
    }

    fn alternative(&mut self, alternative: &Alternative) {
        self.head(0x12, alternative.span);
        self.byte(alternative.attributes.len());
        self.byte(usize::from(alternative.condition.is_some()));
        self.action(&alternative.action);
        self.half(alternative.symbols.len());
        for attribute in &alternative.attributes {
            self.attribute(attribute);
        }
        if let Some(condition) = &alternative.condition {
            self.named(0x14, condition.span, &condition.lhs);
            self.byte(usize::from(!condition.equals));
            self.text(&condition.rhs);
        }
        self.symbols(&alternative.symbols);
    }

    fn action(&mut self, action: &Action) {
        let (code, text) = match action {
            Action::None => (0, None),
            Action::User(text) => (1, Some(text)),
            Action::Fallible(text) => (2, Some(text)),
            Action::Lookahead => (3, None),
            Action::Lookbehind => (4, None),
        };
        self.byte(code);
        match text {
            Some(text) => self.text(text),
            None => self.half(0),
        }
    }

    fn attribute(&mut self, attribute: &Attribute) {
        self.body.push(0x13);
        self.text(&attribute.id);
        self.byte(usize::from(attribute.equal.is_some()));
        match &attribute.equal {
            Some((key, value)) => {
                self.text(key);
                self.text(value);
            }
            None => self.body.extend([0; 4]),
        }
    }

    fn symbols(&mut self, symbols: &[Symbol]) {
        for symbol in symbols {
            self.symbol(symbol);
            self.symbols(symbol.kind.inner());
        }
    }

    /// The symbol's own command.
    fn symbol(&mut self, symbol: &Symbol) {
        let span = symbol.span;
        match &symbol.kind {
            Kind::Ambiguous(name) => self.named(0x20, span, name),
            Kind::Bare(name) => self.named(0x21, span, name),
            Kind::Quoted(text) => self.named(0x22, span, text),
            Kind::Regex(text) => self.named(0x23, span, text),
            Kind::Nonterminal(name) => self.named(0x24, span, name),
            Kind::Macro(name, arguments) => {
                self.named(0x25, span, name);
                self.byte(arguments.len());
            }
            Kind::Repeat(op, _) => {
                self.head(0x26, span);
                self.byte(*op as usize);
            }
            Kind::Choose(_) => self.head(0x27, span),
            Kind::Name { mutable, name, .. } => {
                self.head(0x28, span);
                self.byte(usize::from(*mutable));
                self.text(name);
            }
            Kind::Group(symbols) => {
                self.head(0x29, span);
                self.half(symbols.len());
            }
            Kind::Lookahead => self.head(0x2a, span),
            Kind::Lookbehind => self.head(0x2b, span),
            Kind::Error => self.head(0x2c, span),
        }
    }
}
