//! What the system is asked for, and all that is `unsafe` here: pages without access, a look at a stack, a word at a fault, libFuzzer.
#[cfg(guided)]
pub mod driver;
pub mod fault;
pub mod pages;
pub mod stack;
