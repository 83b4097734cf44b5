//! Stand-ins for what LALRPOP's files use and their folder has not: only types, so that the passes compile.
use std::fmt::{self, Display};
use std::sync::Arc;

/// `string_cache`'s atom: here a text that is shared, so that cloning one copies no text, as there.
#[derive(Clone, Debug, Default, Hash, PartialEq, Eq, PartialOrd, Ord)]
pub struct DefaultAtom(Arc<str>);

impl DefaultAtom {
    pub fn as_str(&self) -> &str {
        &self.0
    }
}

impl std::ops::Deref for DefaultAtom {
    type Target = str;
    fn deref(&self) -> &str {
        &self.0
    }
}

impl<T: Into<String>> From<T> for DefaultAtom {
    fn from(text: T) -> DefaultAtom {
        DefaultAtom(text.into().into())
    }
}

// only the parser's files ask for it (crate parser)
impl AsRef<str> for DefaultAtom {
    fn as_ref(&self) -> &str {
        &self.0
    }
}

impl PartialEq<str> for DefaultAtom {
    fn eq(&self, text: &str) -> bool {
        &*self.0 == text
    }
}

impl Display for DefaultAtom {
    fn fmt(&self, f: &mut fmt::Formatter<'_>) -> fmt::Result {
        self.0.fmt(f)
    }
}

/// The two regex condition operators aren't carried: nothing makes one of these.
pub struct Regex;

impl Regex {
    pub fn new(_: &str) -> Result<Regex, String> {
        unimplemented!("regex conditions")
    }
    pub fn is_match(&self, _: &str) -> bool {
        unimplemented!("regex conditions")
    }
}

pub mod lexer {
    pub mod dfa {
        #[derive(Clone, Debug, PartialEq, Eq)]
        pub struct Dfa;
    }
}

pub mod pattern {
    #[derive(Clone, Debug, PartialEq, Eq)]
    pub struct Pattern<T>(pub T);
}

pub mod free_variables {
    use crate::grammar::parse_tree::TypeParameter;

    pub trait FreeVariables {
        fn free_variables(&self, _: &[TypeParameter]) -> Vec<TypeParameter> {
            unimplemented!("types")
        }
    }

    impl FreeVariables for crate::grammar::repr::TypeRepr {}
}

/// The messages' layout: nothing is shown here.
pub mod message {
    pub trait Content {}

    pub mod builder {
        use super::Content;
        use std::fmt::Display;

        pub struct InlineBuilder;
        pub struct Adjacent;

        struct Nothing;
        impl Content for Nothing {}

        impl InlineBuilder {
            pub fn new() -> Self {
                InlineBuilder
            }
            pub fn begin_adjacent(self) -> Adjacent {
                Adjacent
            }
            pub fn text<T: Display>(self, _: T) -> Self {
                self
            }
            pub fn styled(self, _: ()) -> Self {
                self
            }
            pub fn end(self) -> Box<dyn Content> {
                Box::new(Nothing)
            }
        }

        impl Adjacent {
            pub fn text<T: Display>(self, _: T) -> Self {
                self
            }
            pub fn end(self) -> InlineBuilder {
                InlineBuilder
            }
        }
    }
}

pub mod session {
    pub struct Session {
        pub nonterminal_symbol: (),
        pub terminal_symbol: (),
    }
}

pub mod tls {
    use crate::grammar::parse_tree::Span;

    pub struct Tls;
    pub struct FileText;

    impl Tls {
        pub fn session() -> crate::session::Session {
            unimplemented!("messages")
        }
        pub fn file_text() -> FileText {
            unimplemented!("messages")
        }
    }

    impl FileText {
        pub fn span_str(&self, _: Span) -> String {
            unimplemented!("messages")
        }
    }
}
