//! write_examples: writes the tapes in docs/examples.
use compare::examples::{all, folder};

fn main() -> std::io::Result<()> {
    all().into_iter().try_for_each(|(name, tape)| std::fs::write(folder().join(name), tape))
}
