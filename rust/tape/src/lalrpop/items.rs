//! The items of a grammar, and what stands before them.
use super::parser::{counted, Parser};
use super::scanner::Lexeme;
use super::unreadable::{Fault, Read};
use crate::sizes::{BYTE, HALF};
use crate::tree::{Item, Nonterminal};

impl Parser<'_> {
    pub fn grammar(&mut self) -> Read<Vec<Item>> {
        self.head()?;
        self.items()
    }

    pub fn items(&mut self) -> Read<Vec<Item>> {
        let mut items = vec![];
        while self.token().lexeme != Lexeme::End {
            self.item(&mut items)?;
        }
        Ok(items)
    }

    /// Nothing of it is carried.
    fn head(&mut self) -> Read<()> {
        while self.token().lexeme == Lexeme::Module {
            self.step();
        }
        while self.token().lexeme == Lexeme::Use {
            self.use_line()?;
        }
        while self.take("#") {
            self.need("[", "an attribute")?;
            self.skip_to("]", "an attribute")?;
            self.step();
        }
        self.need("grammar", "a grammar")?;
        self.skip_to(";", "the `grammar` line")?;
        self.step();
        Ok(())
    }

    fn use_line(&mut self) -> Read<()> {
        self.step();
        self.need(";", "a `use`")
    }

    /// One item, or all the terminals of a block.
    fn item(&mut self, items: &mut Vec<Item>) -> Read<()> {
        if self.token().lexeme == Lexeme::Use {
            return self.use_line();
        }
        if self.take("extern") {
            return self.extern_block(items);
        }
        if self.take("match") {
            return self.match_block(items);
        }
        let begins = self.is("#") || self.is("pub") || self.word().is_some() || matches!(self.token().lexeme, Lexeme::Escape(_));
        if !begins {
            return Err(self.expected("a grammar", "a nonterminal, `extern`, `match` or `use`"));
        }
        items.push(Item::Nonterminal(self.nonterminal()?));
        Ok(())
    }

    fn nonterminal(&mut self) -> Read<Nonterminal> {
        let (inline, public) = (self.inline()?, self.public()?);
        let from = self.from();
        let (name, args) = self.declared()?;
        let args = counted(args, BYTE, from, "a macro with more than 255 arguments")?;
        let span = self.span(from);
        if self.take(":") {
            let start = self.from();
            self.skip_to("=", "a type")?;
            if self.from() == start {
                return Err(self.expected("a nonterminal", "a type"));
            }
        }
        self.need("=", "a nonterminal")?;
        let alternatives = counted(self.alternatives()?, HALF, from, "a nonterminal with more than 65,535 alternatives")?;
        Ok(Nonterminal { span, name, inline, public, args, alternatives })
    }

    /// A name, and the arguments of a macro. A name in backticks takes none.
    fn declared(&mut self) -> Read<(String, Vec<String>)> {
        if let Lexeme::Escape(name) = self.token().lexeme {
            return Ok((self.escaped_name(name)?, vec![]));
        }
        let name = self.name("a nonterminal")?;
        let args = if self.calls() { self.arguments()? } else { vec![] };
        Ok((name, args))
    }

    fn arguments(&mut self) -> Read<Vec<String>> {
        self.step();
        self.list(">", "arguments of a macro", |parser| parser.name("arguments of a macro"))
    }

    /// Of a nonterminal's attributes a tape carries only this one.
    fn inline(&mut self) -> Read<bool> {
        let mut inline = false;
        while self.is("#") {
            let from = self.from();
            let next = [1, 2, 3].map(|count| &self.ahead(count).lexeme);
            if next != [&Lexeme::Mark("["), &Lexeme::Word("inline"), &Lexeme::Mark("]")] {
                let id = self.attribute()?.id;
                return Err(Fault::new(from, format!("the attribute `{id}` of a nonterminal can't be carried")));
            }
            (0..4).for_each(|_| self.step());
            inline = true;
        }
        Ok(inline)
    }

    /// `pub`, `pub(crate)` and so on; to which module is not carried.
    fn public(&mut self) -> Read<bool> {
        let public = self.take("pub");
        if public && self.take("(") {
            self.skip_to(")", "`pub`")?;
            self.step();
        }
        Ok(public)
    }
}
