//! What is measured: a tape, and its tree for LALRPOP.
use crate::grammars::grammar;
use crate::hostile;
use crate::tapes::symbols;
use normalize::{work_len, Refusal};
use oracle::{expand, staged, Call, Expanded, Ready, ROUNDS};
use reading::tree::Stage;
use reading::{answer, read, read_made, write};
use std::cell::OnceCell;

/// What stands before the size of a tape of symbols.
pub const SYMBOLS: &str = "symbols-";

/// Our call for macros, or for the whole.
pub type Expand = fn(&[u8], u16, &mut [u8], &mut [u8]) -> Result<usize, Refusal>;

pub struct Subject {
    pub tape: Vec<u8>,
    /// Nothing where LALRPOP's files are missing, and for tapes that aren't grammars.
    pub ready: Option<Ready>,
    /// The length of the levelled tree, once it was asked for.
    levelled: OnceCell<usize>,
}

impl Subject {
    pub fn of_tape(tape: Vec<u8>) -> Subject {
        Subject { tape, ready: None, levelled: OnceCell::new() }
    }

    /// A grammar of so many nonterminals.
    pub fn of_grammar(nonterminals: usize) -> Subject {
        Subject::of_stage(&grammar(nonterminals))
    }

    pub fn of_stage(stage: &Stage) -> Subject {
        Subject { tape: write(stage), ready: Ready::of(stage), levelled: OnceCell::new() }
    }

    /// By what stands on the command line: a number of nonterminals, `symbols-SIZE` for a tape of symbols of about that many bytes, or a hostile
    /// grammar's name and its count.
    pub fn of_word(word: &str) -> Subject {
        let number = |text: &str| text.parse().expect("a number, or symbols- and a number, or a hostile grammar's name and a number");
        match (word.strip_prefix(SYMBOLS), hostile::of_word(word)) {
            (Some(size), _) => Subject::of_tape(symbols(number(size))),
            (None, Some(stage)) => Subject::of_stage(&stage),
            (None, None) => Subject::of_grammar(number(word)),
        }
    }

    /// The tree, once validating and resolving accepted the tape and LALRPOP's tree, if it is there, was the same.
    pub fn tree(&self) -> Vec<u8> {
        let mut tree = self.output();
        self.validate(&mut self.work_of_validating());
        self.resolve(&mut tree, &mut self.work_of_resolving());
        let stage = reading::read(&self.tape).expect("a tape that is read");
        if let Some(theirs) = oracle::resolve(&stage) {
            let theirs = theirs.expect("a grammar that LALRPOP resolves");
            assert!(write(&theirs) == tree, "LALRPOP's tree is another");
        }
        tree
    }

    /// The levelled tree, once LALRPOP's, if it is there, was the same.
    pub fn levelled_tree(&self) -> Vec<u8> {
        let (mut tree, mut work) = (self.output_of_levels(), self.work_of_levels());
        self.levels(&mut tree, &mut work);
        let theirs = answer(&self.tape, tree.len(), work.len(), |stage| staged(stage, Call::Levels, 0));
        tree.truncate(self.levelled());
        if let Some(theirs) = theirs {
            assert!(theirs.expect("a grammar that LALRPOP levels") == tree, "LALRPOP's tree is another");
        }
        tree
    }

    /// The tree is as long as the tape.
    pub fn output(&self) -> Vec<u8> {
        vec![0; self.tape.len()]
    }

    pub fn work_of_validating(&self) -> Vec<u8> {
        vec![0; work_len(self.tape.len(), 0)]
    }

    pub fn work_of_resolving(&self) -> Vec<u8> {
        vec![0; work_len(self.tape.len(), self.tape.len())]
    }

    pub fn validate(&self, work: &mut [u8]) {
        assert_eq!(normalize::validate(&self.tape, work), Ok(self.tape.len()));
    }

    fn levelled(&self) -> usize {
        *self.levelled.get_or_init(|| self.levels_once())
    }

    /// Levels with an output twice as long as the tape, which suffices here: the length of the tree.
    pub fn levels_once(&self) -> usize {
        let mut output = vec![0; 2 * self.tape.len()];
        let mut work = vec![0; work_len(self.tape.len(), output.len())];
        normalize::levels(&self.tape, &mut output, &mut work).expect("a grammar that is levelled")
    }

    /// Just long enough for the resolved tree and the levelled one.
    pub fn output_of_levels(&self) -> Vec<u8> {
        vec![0; self.levelled().max(self.tape.len())]
    }

    pub fn work_of_levels(&self) -> Vec<u8> {
        vec![0; work_len(self.tape.len(), self.levelled().max(self.tape.len()))]
    }

    pub fn levels(&self, output: &mut [u8], work: &mut [u8]) {
        assert_eq!(normalize::levels(&self.tape, output, work), Ok(self.levelled()));
    }

    /// Macros or the whole with so long an output that each stage fits: the length of the tree.
    pub fn once(&self, call: Expand) -> usize {
        let mut output = vec![0; self.ample()];
        let mut work = vec![0; work_len(self.tape.len(), output.len())];
        self.expanded(call, &mut output, &mut work)
    }

    /// An output's length that suffices for each of these grammars.
    fn ample(&self) -> usize {
        16 * self.tape.len() + 4_096
    }

    /// Just long enough for each stage of a call, found by halving: a stage before the last may be longer than it.
    pub fn output_of(&self, call: Expand) -> Vec<u8> {
        let (mut short, mut long) = (self.tape.len() - 1, self.ample());
        while short + 1 < long {
            let (half, mut output) = ((short + long) / 2, vec![0; (short + long) / 2]);
            let mut work = vec![0; work_len(self.tape.len(), half)];
            match call(&self.tape, ROUNDS, &mut output, &mut work) {
                Ok(_) => long = half,
                Err(_) => short = half,
            }
        }
        vec![0; long]
    }

    pub fn expanded(&self, call: Expand, output: &mut [u8], work: &mut [u8]) -> usize {
        call(&self.tape, ROUNDS, output, work).expect("a grammar whose macros are expanded")
    }

    /// The length of the tree behind all passes, once LALRPOP's, if it is there, was the same.
    pub fn passed(&self) -> usize {
        let mut tree = vec![0; self.ample()];
        let mut work = vec![0; work_len(self.tape.len(), tree.len())];
        let length = self.expanded(normalize::whole, &mut tree, &mut work);
        tree.truncate(length);
        if let Some(theirs) = expand(&read(&self.tape).expect("a tape that is read"), ROUNDS) {
            let Expanded::Tree(theirs) = theirs else { panic!("a grammar that LALRPOP expands: {theirs:?}") };
            assert!(theirs.items == read_made(&tree).expect("a tree that is read").items, "LALRPOP's tree is another");
        }
        tree.len()
    }

    pub fn resolve(&self, output: &mut [u8], work: &mut [u8]) {
        assert_eq!(normalize::resolve(&self.tape, output, work), Ok(self.tape.len()));
    }
}
