//! `stored input CALL` prints the stored cases of a call (resolve, levels, macros, whole) as crates/cases takes them, `stored expected CALL` their answers by
//! document 01 and the Rust, one line each.
use compare::chosen::{lines, stored, word};
use compare::stated;
use oracle::CALLS;

fn main() {
    let words: Vec<String> = std::env::args().skip(1).collect();
    let words: Vec<&str> = words.iter().map(String::as_str).collect();
    let (is_input, name) = match words[..] {
        ["input", name] => (true, name),
        ["expected", name] => (false, name),
        _ => fail("usage: stored input|expected resolve|levels|macros|whole"),
    };
    let Some(call) = CALLS.into_iter().find(|call| word(*call) == name) else { fail("no such call") };
    let Some(list) = stored(call) else { fail(oracle::NOT_THERE) };
    for (case, answer) in lines(call, &list).into_iter().chain(stated::lines(call).unwrap_or_default()) {
        println!("{}", if is_input { case } else { answer });
    }
}

fn fail(text: &str) -> ! {
    eprintln!("{text}");
    std::process::exit(2);
}
