//! A no: the number of document 01's question, the place, and a sentence about it.
use std::error::Error;
use std::fmt;

/// The question that the tape fails, and where.
#[derive(Clone, Copy, Debug, PartialEq, Eq, Hash)]
pub struct Refusal {
    /// Of the question that is answered no, 1 to 21.
    pub number: u8,
    /// 2 to 4: the command's offset twice. 1, 20 and 21: 0 0. Others: a span of the grammar.
    pub place: (u64, u64),
}

/// Where a refusal points.
#[derive(Clone, Copy, Debug, PartialEq, Eq, Hash)]
pub enum Place {
    /// The buffers or a whole stage: 1, 20 and 21.
    Nowhere,
    /// A byte of the tape, at which a command begins or is missing: 2 to 4.
    Offset(u64),
    /// From and to in the grammar's file, as the tape has them: 5 to 19.
    Span(u64, u64),
}

impl Refusal {
    /// Its place, as the question says it.
    ///
    /// ```
    /// use tape::{Place, Refusal};
    ///
    /// assert_eq!(Refusal { number: 4, place: (3, 3) }.at(), Place::Offset(3));
    /// assert_eq!(Refusal { number: 5, place: (3, 9) }.at(), Place::Span(3, 9));
    /// ```
    pub fn at(&self) -> Place {
        let (from, to) = self.place;
        match self.number {
            1 | 20 | 21 => Place::Nowhere,
            2..=4 => Place::Offset(from),
            _ => Place::Span(from, to),
        }
    }

    /// What is wrong, without number and place.
    ///
    /// ```
    /// assert_eq!(tape::Refusal { number: 8, place: (3, 9) }.sentence(), "a name is not defined");
    /// ```
    pub fn sentence(&self) -> &'static str {
        fault(self.number).unwrap_or("the tape was refused")
    }
}

/// What is wrong where the question with this number is answered no, or nothing where there is no such question.
fn fault(number: u8) -> Option<&'static str> {
    Some(match number {
        1 => "the work buffer is shorter than 8 × (tape + output) bytes",
        2 => "a command is unknown, not allowed there, cut off or missing",
        3 => "an operand is undefined or out of its values, an atom is there twice, or a symbol is more than 64 deep",
        4 => "a text does not suit its use",
        5 => "a name is declared twice, as the same kind",
        6 => "a name is declared twice, as different kinds",
        7 => "two arguments of one macro have the same name",
        8 => "a name is not defined",
        9 => "a condition does not name an argument",
        10 => "a nonterminal symbol names neither a nonterminal without arguments nor an argument",
        11 => "a call does not name a macro",
        12 => "a call has another count of arguments than its macro",
        13 => "a macro is named without arguments",
        14 => "a precedence level is not a number under 4294967296",
        15 => "an associativity is none of left, right, none, all",
        16 => "an alternative of the lowest level has another associativity than all",
        17 => "a condition's argument is not a quoted literal",
        18 => "macro expansion needs more rounds than the limit",
        19 => "a group has a named symbol straight inside",
        20 => "a stage has more than 65,536 atoms, or a text, count or nesting over its bound",
        21 => "the output buffer is shorter than a stage",
        _ => return None,
    })
}

impl fmt::Display for Refusal {
    fn fmt(&self, f: &mut fmt::Formatter<'_>) -> fmt::Result {
        match self.at() {
            Place::Nowhere => {}
            Place::Offset(at) => write!(f, "at byte {at} of the tape: ")?,
            Place::Span(from, to) => write!(f, "at {from} to {to} of the grammar: ")?,
        }
        f.write_str(self.sentence())?;
        write!(f, " (refusal {})", self.number)
    }
}

impl Error for Refusal {}

#[cfg(test)]
mod tests {
    use super::*;

    const README: &str = include_str!("../../../README.md");

    /// The numbers of README's table of refusals, in its order.
    fn numbers() -> Vec<u8> {
        let table = README.split("## Refusals").nth(1).expect("a chapter of refusals");
        let table = table.split("\n## ").next().unwrap_or_default();
        table.lines().filter_map(|line| line.split('|').nth(1)?.trim().parse().ok()).collect()
    }

    fn sentence(number: u8) -> String {
        Refusal { number, place: (3, 9) }.to_string()
    }

    #[test]
    fn each_number_of_the_readme_has_a_sentence_of_its_own() {
        let numbers = numbers();
        assert_eq!(numbers, (1..=21).collect::<Vec<u8>>());
        let faults: std::collections::HashSet<_> = numbers.iter().map(|&number| fault(number).expect("a sentence")).collect();
        assert_eq!(faults.len(), numbers.len());
        let others = (0..=u8::MAX).filter(|number| !numbers.contains(number));
        assert!(others.into_iter().all(|number| fault(number).is_none()));
    }

    #[test]
    fn the_sentence_has_number_and_place() {
        assert_eq!(sentence(5), "at 3 to 9 of the grammar: a name is declared twice, as the same kind (refusal 5)");
        assert_eq!(sentence(4), "at byte 3 of the tape: a text does not suit its use (refusal 4)");
        assert_eq!(sentence(21), "the output buffer is shorter than a stage (refusal 21)");
        assert_eq!(sentence(99), "at 3 to 9 of the grammar: the tape was refused (refusal 99)");
    }

    #[test]
    fn its_place_is_what_the_question_says() {
        let at = |number| Refusal { number, place: (3, 9) }.at();
        let (nowhere, offsets, spans): (Vec<u8>, Vec<u8>, Vec<u8>) = (vec![1, 20, 21], (2..=4).collect(), (5..=19).collect());
        assert!(nowhere.into_iter().all(|number| at(number) == Place::Nowhere));
        assert!(offsets.into_iter().all(|number| at(number) == Place::Offset(3)));
        assert!(spans.into_iter().all(|number| at(number) == Place::Span(3, 9)));
    }

    #[test]
    fn it_is_an_error_like_others() {
        let boxed: Box<dyn Error + Send + Sync> = Refusal { number: 1, place: (0, 0) }.into();
        assert_eq!(boxed.to_string(), "the work buffer is shorter than 8 × (tape + output) bytes (refusal 1)");
    }
}
