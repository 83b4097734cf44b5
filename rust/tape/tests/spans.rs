//! Spans are bytes of the text, from the first token to the last; an alternative begins behind its attributes. Code ends where the next token begins.
mod common;
use common::carried;
use tape::tree::*;

const GRAMMAR: &str = r#"// é
grammar;
#[inline] pub A = C;
pub M<B>: T = { #[x] <b: B*> (C ) if B == "b" => f(b) , C<D> };
extern { enum T { n => N(<i32>) , "q" => Q } }
match { "m" => m }"#;

fn pieces(symbols: &[Symbol], found: &mut Vec<Span>) {
    for symbol in symbols {
        found.push(symbol.span);
        pieces(symbol.kind.inner(), found);
    }
}

#[test]
fn each_span_is_its_text() {
    let items = carried(GRAMMAR).items;
    let text = |span: &Span| &GRAMMAR[span.0 as usize..span.1 as usize];
    let [Item::Nonterminal(a), Item::Nonterminal(m), Item::Extern(n, _), Item::Match(terminal, _)] = &items[..] else {
        panic!("{items:?}")
    };
    assert_eq!([&a.span, &m.span, n, terminal].map(text), ["A", "M<B>", "n => N(<i32>) ", "\"m\" => m "]);
    let [first, second] = &m.alternatives[..] else { panic!() };
    assert_eq!([&first.span, &second.span].map(text), [r#"<b: B*> (C ) if B == "b" => f(b) "#, "C<D>"]);
    assert_eq!(first.condition.as_ref().map(|condition| text(&condition.span)), Some(r#"B == "b""#));
    let mut found = vec![];
    pieces(&first.symbols, &mut found);
    pieces(&second.symbols, &mut found);
    assert_eq!(found.iter().map(text).collect::<Vec<_>>(), ["<b: B*>", "B*", "B", "(C )", "C", "C<D>", "D"]);
}
