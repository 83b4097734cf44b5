//! What one call is given: a tape, a limit, and how long its buffers are.
use crate::stages;
use oracle::chance::Chance;
use oracle::Call;

/// Stages whose lengths a random tape is tried at.
const MOST_STAGES: usize = 4;

/// A call with rounds: which one, within which limit, and how long an output may be.
#[derive(Clone, Copy, Debug)]
pub struct Rounds {
    pub call: Call,
    pub limit: u16,
    pub longest: usize,
}

/// Lengths told from the tape, so that they keep their sense when the tape shrinks. Below zero bytes they are zero.
#[derive(Clone, Copy, Debug, Default, PartialEq, Eq)]
pub struct Room {
    /// The output's length beyond the tape's.
    pub output: isize,
    /// Work's length beyond 8 × (tape + output).
    pub work: isize,
}

#[derive(Clone, Debug, PartialEq, Eq)]
pub struct Case {
    pub tape: Vec<u8>,
    /// Rounds of macros; the other calls take none.
    pub limit: u16,
    pub room: Room,
}

impl Case {
    pub fn fitting(tape: Vec<u8>) -> Case {
        Case { tape, limit: 0, room: Room::default() }
    }

    /// With an output that a few levels fit in.
    pub fn roomy(tape: Vec<u8>) -> Case {
        Case { room: Room { output: tape.len() as isize / 2 + 200, work: 0 }, limit: 0, tape }
    }

    /// With an output that a few rounds fit in.
    pub fn expanding(tape: Vec<u8>, limit: u16) -> Case {
        Case { room: Room { output: tape.len() as isize + 2_000, work: 0 }, limit, tape }
    }

    /// Without output, as validating takes it.
    pub fn validating(tape: Vec<u8>, work: isize) -> Case {
        Case { room: Room { output: -(tape.len() as isize), work }, limit: 0, tape }
    }

    pub fn within(self, limit: u16) -> Case {
        Case { limit, ..self }
    }

    pub fn output_len(&self) -> usize {
        self.tape.len().saturating_add_signed(self.room.output)
    }

    pub fn work_len(&self) -> usize {
        reading::work_needed(self.tape.len(), self.output_len()).saturating_add_signed(self.room.work)
    }
}

/// A tape with every output up to three bytes longer than the longest stage, and with work of every length around what is asked for.
pub fn every_room(tape: &[u8], longest: usize) -> impl Iterator<Item = Case> + '_ {
    let beyond = longest.max(tape.len()) - tape.len();
    let outputs = -(tape.len() as isize)..=beyond as isize + 3;
    let rooms = outputs.flat_map(|output| (-9..=9).map(move |work| Room { output, work }));
    rooms.map(|room| Case { tape: tape.to_vec(), limit: 0, room })
}

/// Mostly enough room; else at the boundary or far from it.
pub fn room(chance: &mut Chance, tape: usize) -> Room {
    let length = tape as isize;
    let output = match chance.under(20) {
        0..=7 => 0,
        8..=10 => chance.one_of(&[1, 2, 3]),
        11..=16 => chance.under(400) as isize,
        17 => chance.one_of(&[-1, -2]),
        18 => chance.one_of(&[-length, 2 * length]),
        _ => -(chance.under(tape + 1) as isize),
    };
    let need = reading::work_needed(tape, tape.saturating_add_signed(output));
    Room { output, work: work(chance, need) }
}

/// Work beyond what is asked for: mostly enough.
fn work(chance: &mut Chance, need: usize) -> isize {
    match chance.under(20) {
        0..=9 => 0,
        10..=13 => chance.one_of(&[1, 7, 9]),
        14..=17 => chance.under(1_000) as isize,
        18 => -(chance.under(need + 1) as isize),
        _ => chance.one_of(&[-1, -8, -(need as isize), need as isize]),
    }
}

/// The lengths of the resolved stage and of the levelled one, as far as the Rust comes.
pub fn level_lengths(tape: &[u8]) -> Vec<usize> {
    lengths(tape, Call::Levels, 0, usize::MAX)
}

/// The lengths of the stages of a call with rounds, none over the longest.
pub fn round_lengths(tape: &[u8], rounds: Rounds) -> Vec<usize> {
    let mut lengths = lengths(tape, rounds.call, rounds.limit, rounds.longest);
    lengths.retain(|length| *length <= rounds.longest);
    lengths
}

fn lengths(tape: &[u8], call: Call, limit: u16, longest: usize) -> Vec<usize> {
    reading::read(tape).ok().and_then(|stage| stages::lengths(&stage, call, limit, longest)).unwrap_or_default()
}

/// A tape with outputs as long as itself, as each stage of levels, one byte shorter than each, and much longer.
pub fn at_level_lengths(chance: &mut Chance, tape: &[u8]) -> Vec<Case> {
    at_lengths(chance, tape, level_lengths(tape))
}

/// The same of a call with rounds; of many stages some are left out, the last one never.
pub fn at_round_lengths(chance: &mut Chance, tape: &[u8], rounds: Rounds) -> Vec<Case> {
    let mut lengths = round_lengths(tape, rounds);
    while lengths.len() > MOST_STAGES {
        lengths.remove(chance.under(lengths.len() - 1));
    }
    at_lengths(chance, tape, lengths).into_iter().map(|case| case.within(rounds.limit)).collect()
}

/// The same at every stage.
pub fn at_every_length(chance: &mut Chance, tape: &[u8], rounds: Rounds) -> Vec<Case> {
    at_lengths(chance, tape, round_lengths(tape, rounds)).into_iter().map(|case| case.within(rounds.limit)).collect()
}

fn at_lengths(chance: &mut Chance, tape: &[u8], mut lengths: Vec<usize>) -> Vec<Case> {
    lengths.push(tape.len());
    let longest = lengths.iter().copied().max().unwrap_or(0);
    lengths.extend(lengths.clone().iter().map(|length| length.saturating_sub(1)));
    lengths.push(longest + 1 + chance.under(400));
    lengths.sort();
    lengths.dedup();
    let with_room = |length: usize| {
        let need = reading::work_needed(tape.len(), length);
        let room = Room { output: length as isize - tape.len() as isize, work: if chance.percent(80) { 0 } else { work(chance, need) } };
        Case { tape: tape.to_vec(), limit: 0, room }
    };
    lengths.into_iter().map(with_room).collect()
}
