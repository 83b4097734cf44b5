//! Grammars that are hard on the whole call: many rounds, many uses, deep groups, many repeats, long names. Each at two sizes.
use reading::parse;
use reading::tree::Stage;

/// Tape and tree together have some 64 KiB with the small count, some 1 MiB with the large one.
pub struct Hostile {
    pub word: &'static str,
    pub about: &'static str,
    pub small: usize,
    pub large: usize,
    text: fn(usize) -> String,
}

pub const ALL: [Hostile; 7] = [
    Hostile { word: "rounds", about: "macros, each calling the next: as many rounds", small: 500, large: 8_000, text: rounds },
    Hostile { word: "uses", about: "uses of one macro, with different arguments", small: 600, large: 10_000, text: uses },
    Hostile { word: "groups", about: "groups nested 60 deep", small: 9, large: 140, text: groups },
    Hostile { word: "repeats", about: "different repeats", small: 280, large: 4_500, text: repeats },
    Hostile {
        word: "fresh",
        about: "repeats of different groups of two names: few texts, many new ones",
        small: 100,
        large: 1_600,
        text: fresh,
    },
    Hostile { word: "again", about: "rounds, each with the same group, 50 deep", small: 90, large: 1_400, text: again },
    Hostile { word: "names", about: "names of 2,000 bytes, alike but for the end, with levels", small: 8, large: 130, text: names },
];

impl Hostile {
    pub fn stage(&self, count: usize) -> Stage {
        parse(&(self.text)(count))
    }

    /// What stands on the command line for it.
    pub fn named(&self, count: usize) -> String {
        format!("{}-{count}", self.word)
    }
}

/// By a name, `-` and a count.
pub fn of_word(word: &str) -> Option<Stage> {
    let (word, count) = word.split_once('-')?;
    let found = ALL.iter().find(|hostile| hostile.word == word)?;
    Some(found.stage(count.parse().ok()?))
}

fn joined(count: usize, each: impl Fn(usize) -> String) -> String {
    (0..count).map(each).collect()
}

/// The macro of each link calls the next one, with this before the call.
fn chain(count: usize, before: &str) -> String {
    let link = |k: usize| format!("M{k}<P> = {before} {}; ", if k + 1 < count { format!("M{}<P>", k + 1) } else { "P".into() });
    format!("S = M0<n>; {}extern {{ enum T {{ n => N }} }}", joined(count, link))
}

fn rounds(count: usize) -> String {
    chain(count, "\"x\"")
}

fn again(count: usize) -> String {
    chain(count, &format!("{}n{}", "(".repeat(50), ")".repeat(50)))
}

fn uses(count: usize) -> String {
    format!("S = {}; M<P> = P \"x\";", joined(count, |k| format!("M<\"a{k}\"> ")))
}

fn groups(count: usize) -> String {
    let tower = |k: usize| format!("{}\"a{k}\"{} ", "(".repeat(60), ")".repeat(60));
    format!("S = {};", joined(count, tower))
}

fn repeats(count: usize) -> String {
    format!("S = {};", joined(count, |k| format!("\"a{k}\"* ")))
}

fn fresh(count: usize) -> String {
    let group = |k: usize| (0..14).map(|bit| if k >> bit & 1 == 1 { "a " } else { "b " }).collect::<String>();
    format!("S = {}; extern {{ enum T {{ a => A, b => B }} }}", joined(count, |k| format!("({})* ", group(k))))
}

fn names(count: usize) -> String {
    let item = |k: usize| {
        let name = format!("{}{k:04}_", "N".repeat(1_995));
        format!(
            "{name} = {{ #[precedence(level=\"1\")] \"n\", #[precedence(level=\"2\")] #[assoc(side=\"left\")] {name} \"+\" {name}? }}; "
        )
    };
    joined(count, item)
}
