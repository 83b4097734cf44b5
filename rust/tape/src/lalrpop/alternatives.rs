//! Alternatives: attributes, symbols, a condition, an action.
use super::parser::{counted, is_mark, Parser};
use super::scanner::Lexeme;
use super::unreadable::{Fault, Read};
use crate::sizes::{BYTE, HALF};
use crate::tree::{Action, Alternative, Attribute, Condition};

impl Parser<'_> {
    /// One, or any number in braces.
    pub fn alternatives(&mut self) -> Read<Vec<Alternative>> {
        if self.take("{") {
            let alternatives = self.list("}", "alternatives", Self::alternative)?;
            self.take(";");
            return Ok(alternatives);
        }
        let only = self.alternative()?;
        self.need(";", "an alternative")?;
        Ok(vec![only])
    }

    fn alternative(&mut self) -> Read<Alternative> {
        let (before, mut attributes) = (self.from(), vec![]);
        while self.is("#") {
            attributes.push(self.attribute()?);
        }
        let attributes = counted(attributes, BYTE, before, "an alternative with more than 255 attributes")?;
        // as LALRPOP has it, an alternative's span is without its attributes
        let from = self.from();
        let symbols = counted(self.symbols(1)?, HALF, from, "an alternative with more than 65,535 symbols")?;
        let condition = if self.take("if") { Some(self.condition()?) } else { None };
        let action = self.action()?;
        if symbols.is_empty() && action == Action::None {
            return Err(self.expected("an alternative", "a symbol or `=>`"));
        }
        Ok(Alternative { span: self.span(from), attributes, condition, action, symbols })
    }

    /// `#[id]` or `#[id(key = "value")]`; LALRPOP's other forms are not carried.
    pub fn attribute(&mut self) -> Read<Attribute> {
        let from = self.from();
        self.step();
        self.need("[", "an attribute")?;
        let id = self.name("an attribute")?;
        let equal = self.key_and_value()?;
        if !self.take("]") {
            self.skip_to("]", "an attribute")?;
            let forms = format!("neither `#[{id}]` nor `#[{id}(key = \"value\")]`");
            return Err(Fault::new(from, format!("the attribute `{id}` can't be carried: it is {forms}")));
        }
        Ok(Attribute { id, equal })
    }

    /// Nothing, and no step, where it isn't of that form.
    fn key_and_value(&mut self) -> Read<Option<(String, String)>> {
        let lexemes = [0, 1, 2, 3].map(|count| self.ahead(count).lexeme.clone());
        let [Lexeme::Mark("("), Lexeme::Word(key), Lexeme::Mark("="), Lexeme::Text(value)] = lexemes else {
            return Ok(None);
        };
        let close = if is_mark(self.ahead(4), ",") { 5 } else { 4 };
        if !is_mark(self.ahead(close), ")") {
            return Ok(None);
        }
        let (key_at, value_at) = (self.ahead(1).from, self.ahead(3).from);
        let key = self.plain(key, key_at, "the key of an attribute")?;
        // as LALRPOP has it, escapes are left as they are written
        let value = self.plain(value, value_at, "the value of an attribute")?;
        (0..=close).for_each(|_| self.step());
        Ok(Some((key, value)))
    }

    fn condition(&mut self) -> Read<Condition> {
        let from = self.from();
        let lhs = self.name("a condition")?;
        if let Some(op) = ["~~", "!~"].into_iter().find(|op| self.is(op)) {
            return Err(Fault::new(self.from(), format!("a condition with `{op}` can't be carried")));
        }
        let equals = self.take("==");
        if !equals && !self.take("!=") {
            return Err(self.expected("a condition", "`==` or `!=`"));
        }
        let text = self.quoted()?.ok_or_else(|| self.expected("a condition", "a quoted text"))?;
        let rhs = self.literal(&text, self.from(), "the text of a condition")?;
        self.step();
        Ok(Condition { span: self.span(from), lhs, equals, rhs })
    }

    fn action(&mut self) -> Read<Action> {
        let (at, lexeme) = (self.from(), self.token().lexeme.clone());
        let action = match lexeme {
            Lexeme::Mark("=>@L") => Action::Lookahead,
            Lexeme::Mark("=>@R") => Action::Lookbehind,
            Lexeme::Code(arrow, code) => {
                let code = self.plain(code.trim(), at, "an action")?;
                if arrow == "=>" {
                    Action::User(code)
                } else {
                    Action::Fallible(code)
                }
            }
            _ => return Ok(Action::None),
        };
        self.step();
        Ok(action)
    }
}
