//! The command line's words.

pub const HELP: &str = "\
gib PASS FILE [OPTION]..

Passes over a grammar, and prints the tree's listing.

  resolve   names resolved
  levels    names resolved, precedence levels expanded
  macros    names resolved, macros, repeats and groups expanded
  expand    all of them
  list      the same as expand; no --tape
  check     the same as expand; prints nothing

FILE is a grammar in LALRPOP's notation, or a tape; - is standard input.

  --limit N         at most N rounds of macro expansion, 0 to 65535 (64)
  --output-size N   at most N bytes for a stage, or as many as FILE's tape has (16777216)
  -o FILE           writes to FILE
  --tape            writes the tree as a tape
  -h, --help        prints this

Exit status: 0 yes, 1 refused, 2 usage, or a file that can't be read or written.
";

/// What is made of the grammar.
#[derive(Clone, Copy, Debug, PartialEq, Eq)]
pub enum Pass {
    Resolve,
    Levels,
    Macros,
    Expand,
    List,
    Check,
}

#[derive(Debug, PartialEq, Eq)]
pub struct Options {
    pub pass: Pass,
    pub file: String,
    pub limit: u16,
    pub longest: usize,
    pub output: Option<String>,
    pub tape: bool,
}

#[derive(Debug, PartialEq, Eq)]
pub enum Request {
    Help,
    Run(Options),
}

fn pass(word: &str) -> Option<Pass> {
    Some(match word {
        "resolve" => Pass::Resolve,
        "levels" => Pass::Levels,
        "macros" => Pass::Macros,
        "expand" => Pass::Expand,
        "list" => Pass::List,
        "check" => Pass::Check,
        _ => return None,
    })
}

/// The number behind an option.
fn number<T: std::str::FromStr>(option: &str, word: Option<String>) -> Result<T, String> {
    let word = word.ok_or_else(|| format!("{option} wants a number"))?;
    word.parse().map_err(|_| format!("{option} wants a number in its range, not `{word}`"))
}

/// What is asked for, or what is wrong with the words.
pub fn options(mut words: impl Iterator<Item = String>) -> Result<Request, String> {
    let (mut names, mut limit, mut longest, mut output, mut tape) = (vec![], 64, 1 << 24, None, false);
    while let Some(word) = words.next() {
        match word.as_str() {
            "-h" | "--help" => return Ok(Request::Help),
            "--limit" => limit = number(&word, words.next())?,
            "--output-size" => longest = number(&word, words.next())?,
            "-o" => output = Some(words.next().ok_or("-o wants a file")?),
            "--tape" => tape = true,
            "-" => names.push(word),
            option if option.starts_with('-') => return Err(format!("there is no option `{option}`")),
            _ => names.push(word),
        }
    }
    let [name, file] = <[String; 2]>::try_from(names).map_err(|_| "a pass and a file are wanted")?;
    let pass = pass(&name).ok_or_else(|| format!("there is no pass `{name}`"))?;
    if tape && matches!(pass, Pass::List | Pass::Check) {
        return Err(format!("{name} writes no tape"));
    }
    Ok(Request::Run(Options { pass, file, limit, longest, output, tape }))
}

#[cfg(test)]
mod tests {
    use super::*;

    fn asked(line: &str) -> Result<Request, String> {
        options(line.split_whitespace().map(String::from))
    }

    #[test]
    fn words_in_any_order() {
        let run = Options { pass: Pass::Macros, file: "g".into(), limit: 7, longest: 99, output: Some("t".into()), tape: true };
        assert_eq!(asked("--limit 7 macros -o t --tape g --output-size 99"), Ok(Request::Run(run)));
        let plain = Options { pass: Pass::Check, file: "-".into(), limit: 64, longest: 1 << 24, output: None, tape: false };
        assert_eq!(asked("check -"), Ok(Request::Run(plain)));
        assert_eq!(asked("expand --help"), Ok(Request::Help));
    }

    #[test]
    fn what_is_wrong_is_said() {
        for (line, wrong) in [
            ("", "a pass and a file are wanted"),
            ("expand", "a pass and a file are wanted"),
            ("expand a b", "a pass and a file are wanted"),
            ("widen g", "there is no pass `widen`"),
            ("expand g --fast", "there is no option `--fast`"),
            ("expand g --limit", "--limit wants a number"),
            ("expand g --limit 65536", "--limit wants a number in its range, not `65536`"),
            ("expand g -o", "-o wants a file"),
            ("check g --tape", "check writes no tape"),
        ] {
            assert_eq!(asked(line), Err(wrong.to_string()), "{line}");
        }
    }
}
