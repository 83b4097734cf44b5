//! Attributes of the random trees: the levels and sides of an annotated nonterminal, those that can't be read, and others.
use super::Grower;
use oracle::convert::attribute;
use oracle::grammar::parse_tree::*;

const GOOD_LEVELS: [&str; 11] = ["0", "1", "2", "3", "+1", "+0", "007", "10", "4294967294", "4294967295", "00000000004294967295"];
/// Levels of the alternatives of one nonterminal.
pub const LADDERS: [[&str; 4]; 4] =
    [["1", "2", "3", "10"], ["1", "2", "3", "3"], ["0", "9", "10", "11"], ["1", "4294967290", "4294967294", "4294967295"]];
const BAD_LEVELS: [&str; 12] = ["-1", "", "+", "-", "one", "1 ", "++1", "1_0", "4294967296", "-0", "99999999999999999999", "1\u{0}"];
const SIDES: [&str; 4] = ["left", "right", "none", "all"];
const BAD_SIDES: [&str; 4] = ["Left", "", "both", "left "];

impl Grower<'_> {
    /// What `get_arg_equal` answers, or, rarely, one of the three arguments where it answers nothing.
    fn with_value(&mut self, id: &str, key: &str, value: &str) -> Attribute {
        let equal = AttributeArg::Equal(value.to_string());
        if self.chance.percent(self.bad) {
            let none = [AttributeArg::Empty, AttributeArg::Paren(vec![]), equal];
            return attribute(id, self.chance.one_of(&none));
        }
        attribute(id, AttributeArg::Paren(vec![attribute(key, equal)]))
    }

    fn level(&mut self, index: usize) -> Attribute {
        let value = match self.chance.under(100) {
            at if at < self.bad => self.chance.one_of(&BAD_LEVELS),
            0..=25 => self.chance.one_of(&GOOD_LEVELS),
            _ => self.ladder[index.min(3)],
        };
        self.with_value("precedence", "level", value)
    }

    /// On the lowest level mostly `all`.
    fn side(&mut self, lowest: bool) -> Attribute {
        let value = match self.chance.under(100) {
            at if at < self.bad => self.chance.one_of(&BAD_SIDES),
            0..=90 if lowest => "all",
            _ => self.chance.one_of(&SIDES),
        };
        self.with_value("assoc", "side", value)
    }

    fn other(&mut self) -> Attribute {
        let id = self.chance.one_of(&["cfg", "inline", "Precedence", "precedence", "assoc"]);
        let (key, value) = (self.text(&["level", "side"], 0x00, 0x7f), self.text(&["1", "left"], 0x00, 0x7f));
        self.with_value(id, &key, &value)
    }

    /// The first alternative of an annotated nonterminal has a level or a side, and only of an annotated one.
    pub fn attributes(&mut self, index: usize) -> Vec<Attribute> {
        let mut found = vec![];
        let may = self.annotated || (index > 0 && self.chance.percent(10));
        let level = may && self.chance.percent(if index == 0 { 85 } else { 70 });
        let side = may && ((index == 0 && !level) || self.chance.percent(50));
        if level {
            found.push(self.level(index));
        }
        if side {
            let place = self.chance.under(found.len() + 1);
            let side = self.side(index == 0 || !level);
            found.insert(place, side);
        }
        if (self.annotated || index > 0) && self.chance.percent(12) {
            found.push(self.other());
        }
        found
    }
}
