//! The cases as an antt module.
use crate::case::Case;
use oracle::Call;

const USES: &str = include_str!("uses.txt");
const UNFOLDING: &str = include_str!("unfolding.txt");
/// What output held before the call, as crates/passes/proofs/Asked.antt has it.
const OLD: [u8; 3] = [3, 1, 4];

/// Cases that follow each other with one tape share it.
pub fn random(cases: &[Case], rows_each: usize) -> String {
    let mut text = format!("-- Written by rust/oracle: random tapes.\nuse Prim.Native.Nat.{{ℕ}}\n{USES}");
    let (mut tape, mut rows) = (String::new(), vec![]);
    for (index, case) in cases.iter().enumerate() {
        if index == 0 || case.tape != cases[index - 1].tape {
            tape = format!("tape{index}");
            text += &format!("\nabbrev {tape} : List ℕ\n{tape} = {}\n", list(&case.tape));
        }
        rows.push((format!("case {index}: {}", short(case)), row(&tape, case)));
    }
    for (index, chunk) in rows.chunks(rows_each).enumerate() {
        let first = index * rows_each;
        text += &theorem(&format!("rows{first}"), &format!("agree{first}"), chunk);
    }
    text
}

/// Each case with a line that says what it shows.
pub fn chosen(cases: &[(String, Case)]) -> String {
    let rows: Vec<_> = cases.iter().map(|(shows, case)| (shows.clone(), row(&list(&case.tape), case))).collect();
    let head = "-- Cases chosen for what they show, with LALRPOP's answers, all in bytes: written by rust/oracle (`calls chosen`). Behind what a case shows\n\
                -- stands its grammar, items in LALRPOP's notation, with \"$n\" for a bare terminal n; spans are places in that text.\n";
    format!("{head}{USES}{}", theorem("rows", "chosen", &rows))
}

fn list<T: std::fmt::Display>(numbers: &[T]) -> String {
    let shown: String = numbers.iter().map(|number| format!("{number} ∷ ")).collect();
    format!("{shown}[]")
}

fn short(case: &Case) -> String {
    case.outcome.as_ref().map_or_else(|refusal| refusal.number.to_string(), |_| "yes".to_string())
}

fn row(tape: &str, case: &Case) -> String {
    let call = match case.call {
        Call::Resolve => "resolving",
        Call::Levels => "levelling",
        Call::Macros => "expanding",
        Call::Whole => "wholly",
    };
    let (words, bytes) = match &case.outcome {
        Ok(tree) => ([1, tree.len() as u64, 0, 0, 0], [&tree[..], OLD.get(tree.len()..).unwrap_or(&[])].concat()),
        Err(refusal) => ([0, refusal.number.into(), refusal.place.0, refusal.place.1, 0], OLD.to_vec()),
    };
    let too_long = if words[1] == 21 && words[0] == 0 { &case.stage[..] } else { &[] };
    let (limit, output, work, words, bytes, too_long) = (case.limit, case.output, case.work, list(&words), list(&bytes), list(too_long));
    format!(
        "record {{ call = {call}; tape = {tape}; limit = {limit}; output = {output}; work = {work}; words = {words}; bytes = {bytes}; \
         too_long = {too_long} }}"
    )
}

/// Rows with a comment before each.
fn theorem(table: &str, name: &str, rows: &[(String, String)]) -> String {
    let line = |(index, (comment, row)): (usize, &(String, String))| {
        let cons = if index == 0 { "" } else { "∷ " };
        format!("    -- {comment}\n    {cons}{row}\n")
    };
    let lines: String = rows.iter().enumerate().map(line).collect();
    let unfolding = UNFOLDING.trim();
    format!(
        "\nabbrev {table} : List Row\n{table} =\n{lines}    ∷ []\n\n\
         {name} : map answered {table} ≡ map expected {table}\nunfolding {unfolding}\n{name} = refl\n"
    )
}
