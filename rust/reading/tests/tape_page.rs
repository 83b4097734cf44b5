//! docs/TAPE.md held to the tape: its commands to their sizes, its worked tape to the example's bytes and tree, its refusals to the reading.
use reading::tree::{Item, Kind, Repeat, Span};
use reading::{operand_bytes, read, write, Refusal};

const PAGE: &str = include_str!("../../../docs/TAPE.md");
const EXAMPLE: &[u8] = include_bytes!("../../../docs/examples/listing.tape");

/// The rows of the table that begins so: the cells of each.
fn rows(header: &str) -> Vec<Vec<&'static str>> {
    let table = PAGE.split(header).nth(1).expect("a table with this header");
    let rows: Vec<Vec<&str>> = table.lines().skip(2).take_while(|line| line.starts_with('|')).map(cells).collect();
    assert!(!rows.is_empty());
    rows
}

fn cells(line: &'static str) -> Vec<&'static str> {
    line.trim_matches('|').split(" | ").map(|cell| cell.trim().trim_matches('`')).collect()
}

fn bytes(hex: &str) -> Vec<u8> {
    let digits: Vec<char> = hex.chars().filter(|digit| !digit.is_whitespace()).collect();
    digits.chunks(2).map(|pair| u8::from_str_radix(&String::from_iter(pair), 16).expect("two digits")).collect()
}

/// How many bytes operands have by their names, whose last digits are bits: `s32 e32 name16`.
fn width(operands: &str) -> usize {
    let fixed = operands.split(',').next().unwrap_or_default();
    let bits = fixed.split(' ').map(|name| name.trim_start_matches(|c: char| !c.is_ascii_digit()).parse::<usize>().expect("bits"));
    bits.sum::<usize>() / 8
}

#[test]
fn the_table_has_every_command_and_its_width() {
    let known: Vec<(u8, usize)> = (0..=u8::MAX).filter_map(|code| Some((code, operand_bytes(code)?))).collect();
    let told = rows("| code | what |").iter().map(|row| (bytes(row[0])[0], width(row[2]))).collect::<Vec<_>>();
    assert_eq!(told, known);
}

#[test]
fn the_worked_tape_is_the_example() {
    let mut tape = vec![];
    for row in rows("| offset | bytes |") {
        assert_eq!(row[0].parse(), Ok(tape.len()), "the offset of {}", row[1]);
        let command = bytes(row[1]);
        let operands = operand_bytes(command[0]).expect("a known command");
        let text = if command[0] == 0x01 { usize::from(command[1]) } else { 0 };
        assert_eq!(command.len(), 1 + operands + text, "{}", row[1]);
        tape.extend(command);
    }
    assert_eq!(tape, EXAMPLE);
}

/// What the words beside the bytes say.
#[test]
fn the_worked_tape_is_read_as_told() {
    let stage = read(EXAMPLE).unwrap();
    assert_eq!(stage.atoms, [b"L", b"n"]);
    let [Item::Nonterminal(l), Item::Extern(Span(0, 0), n)] = &stage.items[..] else { panic!("{:?}", stage.items) };
    assert_eq!((l.span, l.name.as_str(), l.public, l.inline, l.args.len(), n.as_str()), (Span(0, 9), "L", true, false, 0, "n"));
    let [alternative] = &l.alternatives[..] else { panic!("{:?}", l.alternatives) };
    assert_eq!((alternative.span, alternative.symbols[0].span), (Span(4, 6), Span(4, 6)));
    let Kind::Repeat(Repeat::Star, inner) = &alternative.symbols[0].kind else { panic!("{:?}", alternative.symbols) };
    assert_eq!((inner.span, &inner.kind), (Span(4, 5), &Kind::Ambiguous("n".into())));
    assert_eq!(write(&stage), EXAMPLE);
}

#[test]
fn a_changed_byte_is_refused_as_told() {
    for row in rows("| byte | becomes |") {
        let mut tape = EXAMPLE.to_vec();
        tape[row[0].parse::<usize>().unwrap()] = bytes(row[1])[0];
        let told = match row[2] {
            "none" => None,
            refusal => {
                let numbers: Vec<u64> = refusal.split([',', ' ']).filter_map(|word| word.parse().ok()).collect();
                Some(Refusal { number: numbers[0] as u8, place: (numbers[1], numbers[2]) })
            }
        };
        assert_eq!(read(&tape).err(), told, "{}", row[3]);
    }
}
