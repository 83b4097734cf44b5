//! A refusal for a person: its number, its sentence, and the line of the grammar with the place underlined.
use normalize::{Place, Refusal};
use tape::lalrpop::Unreadable;

/// As it is printed: of a tape, or of a text without the place, the place is named by its numbers.
pub fn shown(refusal: Refusal, file: &str, text: Option<&str>) -> String {
    let head = format!("error[{}]: {}\n", refusal.number, refusal.sentence());
    match (refusal.at(), text) {
        (Place::Nowhere, _) => format!("{head} --> {file}\n"),
        (Place::Span(from, to), Some(text)) => match (usize::try_from(from), usize::try_from(to)) {
            (Ok(from), Ok(to)) if from <= to && to <= text.len() => head + &underlined(file, text, from, to),
            _ => format!("{head} --> {file}, {from} to {to}\n"),
        },
        (Place::Span(from, to), None) => format!("{head} --> {file}, at {from} to {to} of the grammar\n"),
        (Place::Offset(at), _) => format!("{head} --> {file}, byte {at} of the tape\n"),
    }
}

/// The same of a text that can't be read or carried; it has no number, and its place is one character.
pub fn unread(no: &Unreadable, file: &str, text: &str) -> String {
    let line = text.split_inclusive('\n').take(no.line - 1).map(str::len).sum::<usize>();
    let (from, to) = (at_column(text, line, no.column), at_column(text, line, no.column + 1));
    format!("error: {}\n{}", no.what, underlined(file, text, from, to))
}

/// Where the character in this column begins, in the line that begins there.
fn at_column(text: &str, line: usize, column: usize) -> usize {
    let rest = &text[line..];
    line + rest.char_indices().nth(column - 1).map_or(rest.len(), |(at, _)| at)
}

/// The line in which the place begins; a place that goes on behind it is underlined to the line's end.
fn underlined(file: &str, text: &str, from: usize, to: usize) -> String {
    let bytes = text.as_bytes();
    let begin = bytes[..from].iter().rposition(|byte| *byte == b'\n').map_or(0, |at| at + 1);
    let line = &bytes[begin..bytes[from..].iter().position(|byte| *byte == b'\n').map_or(text.len(), |at| from + at)];
    let end = begin + line.strip_suffix(b"\r").unwrap_or(line).len();
    let (from, to) = (from.min(end), to.min(end));
    let part = |from: usize, to: usize| String::from_utf8_lossy(&bytes[from..to]).replace('\t', " ");
    let (line, before, under) = (part(begin, end), part(begin, from), part(from, to));
    let number = (bytes[..begin].iter().filter(|byte| **byte == b'\n').count() + 1).to_string();
    let (margin, column) = (" ".repeat(number.len()), before.chars().count() + 1);
    let marks = "^".repeat(under.chars().count().max(1));
    format!("{margin}--> {file}:{number}:{column}\n{margin} |\n{number} | {line}\n{margin} | {}{marks}\n", " ".repeat(column - 1))
}

#[cfg(test)]
mod tests {
    use super::*;

    #[test]
    fn the_place_is_underlined() {
        let text = "grammar;\nA = B\n  C;\n";
        let no = |number, place| shown(Refusal { number, place }, "g", Some(text));
        assert_eq!(no(8, (13, 14)), "error[8]: a name is not defined\n --> g:2:5\n  |\n2 | A = B\n  |     ^\n");
        // over two lines, and nothing at all
        assert_eq!(no(5, (13, 18)), "error[5]: a name is declared twice, as the same kind\n --> g:2:5\n  |\n2 | A = B\n  |     ^\n");
        assert_eq!(no(5, (9, 9)), "error[5]: a name is declared twice, as the same kind\n --> g:2:1\n  |\n2 | A = B\n  | ^\n");
    }

    #[test]
    fn lines_end_as_they_do_elsewhere() {
        let shown = shown(Refusal { number: 8, place: (14, 19) }, "g", Some("grammar;\r\nA = B\r\n C;\r\n"));
        assert_eq!(shown, "error[8]: a name is not defined\n --> g:2:5\n  |\n2 | A = B\n  |     ^\n");
    }

    #[test]
    fn what_is_unread_is_underlined_where_it_begins() {
        let shown = |text: &str| unread(&tape::lalrpop::parse(text).unwrap_err(), "g", text);
        assert_eq!(
            shown("grammar;\nA = é;\n"),
            "error: the name `é` can't be carried: it is not ASCII\n --> g:2:5\n  |\n2 | A = é;\n  |     ^\n"
        );
        let end = "error: an alternative: expected `;`, found the end\n --> g:1:15\n  |\n1 | grammar; A = B\n  |               ^\n";
        assert_eq!(shown("grammar; A = B"), end);
    }

    #[test]
    fn without_a_line_the_place_is_named() {
        let of_tape = |number, place| shown(Refusal { number, place }, "t", None);
        assert_eq!(
            of_tape(2, (7, 7)),
            "error[2]: a command is unknown, not allowed there, cut off or missing\n --> t, byte 7 of the tape\n"
        );
        assert_eq!(of_tape(8, (13, 14)), "error[8]: a name is not defined\n --> t, at 13 to 14 of the grammar\n");
        assert_eq!(of_tape(21, (0, 0)), "error[21]: the output buffer is shorter than a stage\n --> t\n");
    }
}
