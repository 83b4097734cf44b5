//! What libFuzzer's inputs mean: a tape, then four bytes for the call, its limit, the output's and work's length.
use crate::calls::{Exported, ALL};
use crate::lender::Lender;
use crate::session::Session;
use crate::system::driver;
use compare::case::{Case, Room};
use compare::macros::LIMITS;
use compare::{grammars, levels, macros, whole};
use oracle::chance::Chance;
use oracle::damage::damaged;
use std::path::Path;
use std::sync::Mutex;

/// The longest input, in bytes.
const LONGEST: usize = 1_024;

static SESSION: Mutex<Option<Session>> = Mutex::new(None);

/// For so many seconds; the folder keeps what was found, and is where the next run begins.
pub fn run(seconds: u64, seed: u64, folder: &Path) -> ! {
    let inputs = folder.join("inputs");
    std::fs::create_dir_all(&inputs).expect("a folder for inputs");
    for (number, input) in first_inputs().into_iter().enumerate() {
        std::fs::write(inputs.join(format!("first-{number}")), input).expect("a file for an input");
    }
    *SESSION.lock().expect("one thread") = Some(Session::new(Lender::of_pages(), seed));
    let (folder, inputs) = (folder.display(), inputs.display());
    let words = format!(
        "fuzz {inputs} -max_total_time={seconds} -seed={seed} -max_len={LONGEST} -artifact_prefix={folder}/ \
         -len_control=0 -reload=0 -rss_limit_mb=6000 -print_final_stats=1"
    );
    driver::run(&words.split(' ').map(str::to_string).collect::<Vec<_>>(), told)
}

/// The chosen tapes, for the call for all passes, with ample room.
fn first_inputs() -> impl IntoIterator<Item = Vec<u8>> {
    let of_levels = levels::CASES.iter().chain(&levels::OTHERS).map(|case| reading::write(&case.stage()));
    let tapes = grammars::all().map(|known| known.tape()).chain(macros::chosen()).chain(whole::chosen()).chain(of_levels);
    tapes.map(|tape| [&tape[..], &[4, 3, 120, 0]].concat()).collect::<Vec<_>>()
}

extern "C" fn told() {
    // where a difference was told the lock is held still
    if let Some(session) = SESSION.try_lock().ok().as_ref().and_then(|session| session.as_ref()) {
        session.print("guided");
    }
}

/// One input of libFuzzer's.
pub fn one(data: &[u8]) {
    if let Some(session) = SESSION.lock().expect("one thread").as_mut() {
        session.put([decoded(data)]);
    }
}

/// The tape, and the bytes behind it.
fn parts(data: &[u8]) -> (&[u8], [u8; 4]) {
    data.split_last_chunk().map_or((&[], [0; 4]), |(tape, choices)| (tape, *choices))
}

fn decoded(data: &[u8]) -> (Exported, Case) {
    let (tape, [call, limit, output, work]) = parts(data);
    let call = ALL.get(usize::from(call % 8)).copied().unwrap_or(Exported::Whole);
    let limit = LIMITS[usize::from(limit) % LIMITS.len()];
    let output = match isize::from(output) {
        near @ 0..=31 => near,
        far @ 32..=223 => 16 * (far - 31),
        less => 223 - less,
    };
    let work = if work < 192 { 0 } else { isize::from(work) - 224 };
    (call, call.case(tape.to_vec(), limit, Room { output, work }))
}

/// An input with a damaged tape, or with other choices.
pub fn changed(data: &[u8], seed: u64) -> Vec<u8> {
    let mut chance = Chance(seed);
    let (tape, mut choices) = parts(data);
    if chance.percent(20) {
        choices[chance.under(4)] = chance.word() as u8;
        return [tape, &choices].concat();
    }
    let mut tape = damaged(&mut chance, tape);
    tape.truncate(LONGEST - choices.len());
    [&tape[..], &choices].concat()
}
