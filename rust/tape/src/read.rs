//! A tape's tree: questions 2, 3, 4, asked of each command before the next, in one pass over the tape.
use crate::refusal::Refusal;
use crate::sizes::DEEPEST;
use crate::texts::{is_ascii, is_literal, is_name};
use crate::tree::*;
use std::collections::HashSet;

/// The tape's tree, or its first refusal out of 2, 3, 4.
///
/// ```
/// let stage = tape::lalrpop::parse(r#"grammar; A = "a";"#).unwrap();
/// let tape = tape::write(&stage);
/// assert_eq!(tape::read(&tape).unwrap().items, stage.items);
/// // the last byte missing, the symbol's command is cut off
/// let refusal = tape::read(&tape[..tape.len() - 1]).unwrap_err();
/// assert_eq!((refusal.number, refusal.place), (2, (39, 39)));
/// ```
pub fn read(tape: &[u8]) -> Result<Stage, Refusal> {
    read_with(tape, true)
}

/// A tree that a call wrote: its names may be printed forms, so question 4 is not asked.
///
/// ```
/// use tape::tree::{Item, Span, Stage};
///
/// let items = vec![Item::Extern(Span(0, 1), "A?".into())];
/// let tape = tape::write(&Stage::new(items.clone()));
/// assert_eq!(tape::read_made(&tape).unwrap().items, items);
/// assert_eq!(tape::read(&tape).unwrap_err().number, 4);
/// ```
pub fn read_made(tree: &[u8]) -> Result<Stage, Refusal> {
    read_with(tree, false)
}

fn read_with(tape: &[u8], asks_texts: bool) -> Result<Stage, Refusal> {
    let mut reader = Reader { tape, at: 0, atoms: vec![], seen: HashSet::new(), asks_texts };
    let mut items = vec![];
    while reader.at < tape.len() {
        let command = reader.take(|code| matches!(code, 0x10 | 0x30 | 0x31) || (code == 0x01 && items.is_empty()))?;
        match command.code {
            0x01 => reader.atom(&command)?,
            0x10 => items.push(Item::Nonterminal(reader.nonterminal(&command)?)),
            0x30 => items.push(Item::Extern(command.span(), reader.declared(&command)?)),
            _ => items.push(Item::Match(command.span(), reader.declared(&command)?)),
        }
    }
    Ok(Stage { atoms: reader.atoms.iter().map(|text| text.to_vec()).collect(), items })
}

/// How many bytes of operands a known command has; an atom's own bytes not counted.
///
/// ```
/// // an extern terminal: a span and the number of its name
/// assert_eq!(tape::operand_bytes(0x30), Some(4 + 4 + 2));
/// assert_eq!(tape::operand_bytes(0xff), None);
/// ```
pub fn operand_bytes(code: u8) -> Option<usize> {
    Some(match code {
        0x01 | 0x11 => 2,
        0x10 => 14,
        0x12 => 15,
        0x13 => 7,
        0x14 => 13,
        0x20..=0x24 | 0x29 | 0x30 | 0x31 => 10,
        0x25 | 0x28 => 11,
        0x26 => 9,
        0x27 | 0x2a..=0x2c => 8,
        _ => return None,
    })
}

/// A command that is known, allowed where it stands, and whole.
struct Command<'a> {
    offset: usize,
    code: u8,
    operands: &'a [u8],
}

impl Command<'_> {
    fn byte(&self, at: usize) -> u8 {
        self.operands[at]
    }

    fn half(&self, at: usize) -> u16 {
        u16::from_le_bytes([self.operands[at], self.operands[at + 1]])
    }

    fn word(&self, at: usize) -> u32 {
        u32::from(self.half(at)) | u32::from(self.half(at + 2)) << 16
    }

    fn span(&self) -> Span {
        Span(self.word(0), self.word(4))
    }

    /// Refuses with the command's offset where the answer is no.
    fn ask(&self, number: u8, answer: bool) -> Result<(), Refusal> {
        answer.then_some(()).ok_or(refusal(number, self.offset))
    }
}

/// The place of 2 to 4 is an offset, twice.
fn refusal(number: u8, offset: usize) -> Refusal {
    Refusal { number, place: (offset as u64, offset as u64) }
}

struct Reader<'a> {
    tape: &'a [u8],
    at: usize,
    atoms: Vec<&'a [u8]>,
    seen: HashSet<&'a [u8]>,
    /// Whether question 4 is asked.
    asks_texts: bool,
}

impl<'a> Reader<'a> {
    /// Question 2. A tape that ends here misses a command at its length.
    fn take(&mut self, allowed: impl Fn(u8) -> bool) -> Result<Command<'a>, Refusal> {
        let (offset, rest) = (self.at, &self.tape[self.at..]);
        let known = rest.first().and_then(|&code| Some((code, operand_bytes(code)?)));
        let (code, mut length) = known.filter(|&(code, _)| allowed(code)).ok_or(refusal(2, offset))?;
        if code == 0x01 && rest.len() >= 3 {
            length += usize::from(u16::from_le_bytes([rest[1], rest[2]]));
        }
        let operands = rest.get(1..=length).ok_or(refusal(2, offset))?;
        self.at += 1 + length;
        Ok(Command { offset, code, operands })
    }

    /// Question 3 of one operand that numbers an atom: the text, if there is one.
    fn defined(&self, command: &Command, at: usize) -> Result<&'a [u8], Refusal> {
        let found = self.atoms.get(usize::from(command.half(at)));
        command.ask(3, found.is_some())?;
        Ok(found.unwrap())
    }

    /// Question 4 of a text that passed question 3 with its whole command.
    fn suited(&self, command: &Command, text: &[u8], suits: fn(&[u8]) -> bool) -> Result<String, Refusal> {
        command.ask(4, !self.asks_texts || suits(text))?;
        Ok(String::from_utf8(text.to_vec()).expect("a text that suits its use is ASCII"))
    }

    fn atom(&mut self, command: &Command<'a>) -> Result<(), Refusal> {
        let text = &command.operands[2..];
        command.ask(3, self.seen.insert(text))?;
        self.atoms.push(text);
        Ok(())
    }

    /// 30 and 31.
    fn declared(&self, command: &Command) -> Result<String, Refusal> {
        let name = self.defined(command, 8)?;
        self.suited(command, name, is_name)
    }

    fn nonterminal(&mut self, command: &Command) -> Result<Nonterminal, Refusal> {
        let name = self.defined(command, 8)?;
        let flags = command.byte(10);
        command.ask(3, flags <= 3)?;
        let name = self.suited(command, name, is_name)?;
        let args = (0..command.byte(11)).map(|_| self.argument()).collect::<Result<_, _>>()?;
        let alternatives = (0..command.half(12)).map(|_| self.alternative()).collect::<Result<_, _>>()?;
        Ok(Nonterminal { span: command.span(), name, inline: flags & 1 != 0, public: flags & 2 != 0, args, alternatives })
    }

    fn argument(&mut self) -> Result<String, Refusal> {
        let command = self.take(|code| code == 0x11)?;
        let name = self.defined(&command, 0)?;
        self.suited(&command, name, is_name)
    }

    fn alternative(&mut self) -> Result<Alternative, Refusal> {
        let command = self.take(|code| code == 0x12)?;
        let (condition, action) = (command.byte(9), command.byte(10));
        command.ask(3, condition <= 1 && action <= 4)?;
        let action = match action {
            1 => Action::User(self.code(&command)?),
            2 => Action::Fallible(self.code(&command)?),
            other => {
                command.ask(3, command.half(11) == 0)?;
                [Action::None, Action::None, Action::None, Action::Lookahead, Action::Lookbehind][usize::from(other)].clone()
            }
        };
        let attributes = (0..command.byte(8)).map(|_| self.attribute()).collect::<Result<_, _>>()?;
        let condition = if condition == 1 { Some(self.condition()?) } else { None };
        let symbols = self.symbols(usize::from(command.half(13)), 1)?;
        Ok(Alternative { span: command.span(), attributes, condition, action, symbols })
    }

    /// The text of an action that has one.
    fn code(&self, command: &Command) -> Result<String, Refusal> {
        let text = self.defined(command, 11)?;
        self.suited(command, text, is_ascii)
    }

    fn attribute(&mut self) -> Result<Attribute, Refusal> {
        let command = self.take(|code| code == 0x13)?;
        let (id, kind) = (self.defined(&command, 0)?, command.byte(2));
        command.ask(3, kind <= 1)?;
        if kind == 0 {
            command.ask(3, command.half(3) == 0 && command.half(5) == 0)?;
            return Ok(Attribute { id: self.suited(&command, id, is_name)?, equal: None });
        }
        let (key, value) = (self.defined(&command, 3)?, self.defined(&command, 5)?);
        let id = self.suited(&command, id, is_name)?;
        let equal = (self.suited(&command, key, is_ascii)?, self.suited(&command, value, is_ascii)?);
        Ok(Attribute { id, equal: Some(equal) })
    }

    fn condition(&mut self) -> Result<Condition, Refusal> {
        let command = self.take(|code| code == 0x14)?;
        let (lhs, op, rhs) = (self.defined(&command, 8)?, command.byte(10), self.defined(&command, 11)?);
        command.ask(3, op <= 1)?;
        let lhs = self.suited(&command, lhs, is_name)?;
        let rhs = self.suited(&command, rhs, is_literal)?;
        Ok(Condition { span: command.span(), lhs, equals: op == 0, rhs })
    }

    fn symbols(&mut self, count: usize, depth: usize) -> Result<Vec<Symbol>, Refusal> {
        (0..count).map(|_| self.symbol(depth)).collect()
    }

    fn symbol(&mut self, depth: usize) -> Result<Symbol, Refusal> {
        let command = self.take(|code| (0x20..=0x2c).contains(&code))?;
        command.ask(3, depth <= DEEPEST)?;
        let kind = match command.code {
            0x20..=0x24 => self.leaf(&command)?,
            0x25 | 0x28 => self.named(&command, depth)?,
            0x26 => self.repeat(&command, depth)?,
            0x27 => Kind::Choose(Box::new(self.symbol(depth + 1)?)),
            0x29 => Kind::Group(self.symbols(usize::from(command.half(8)), depth + 1)?),
            0x2a => Kind::Lookahead,
            0x2b => Kind::Lookbehind,
            _ => Kind::Error,
        };
        Ok(Symbol { span: command.span(), kind })
    }

    fn leaf(&self, command: &Command) -> Result<Kind, Refusal> {
        let text = self.defined(command, 8)?;
        Ok(match command.code {
            0x20 => Kind::Ambiguous(self.suited(command, text, is_name)?),
            0x21 => Kind::Bare(self.suited(command, text, is_name)?),
            0x22 => Kind::Quoted(self.suited(command, text, is_literal)?),
            0x23 => Kind::Regex(self.suited(command, text, is_literal)?),
            _ => Kind::Nonterminal(self.suited(command, text, is_name)?),
        })
    }

    /// A macro call, or a name given to a symbol.
    fn named(&mut self, command: &Command, depth: usize) -> Result<Kind, Refusal> {
        if command.code == 0x25 {
            let (name, count) = (self.defined(command, 8)?, command.byte(10));
            command.ask(3, count >= 1)?;
            let name = self.suited(command, name, is_name)?;
            return Ok(Kind::Macro(name, self.symbols(usize::from(count), depth + 1)?));
        }
        let (mutable, name) = (command.byte(8), self.defined(command, 9)?);
        command.ask(3, mutable <= 1)?;
        let name = self.suited(command, name, is_name)?;
        Ok(Kind::Name { mutable: mutable == 1, name, inner: Box::new(self.symbol(depth + 1)?) })
    }

    fn repeat(&mut self, command: &Command, depth: usize) -> Result<Kind, Refusal> {
        let op = [Repeat::Star, Repeat::Plus, Repeat::Question].get(usize::from(command.byte(8))).copied();
        command.ask(3, op.is_some())?;
        Ok(Kind::Repeat(op.unwrap(), Box::new(self.symbol(depth + 1)?)))
    }
}
