//! The text form and typed words: what is printed reads back as the same words, places stand where they should, errors say what to do.

use hurkeztor::text::{self, Names, Span};
use hurkeztor::{Nest, Place, Step, Ticket, judge, write};

/// The outside tickets, those with circulations among them.
fn tickets() -> Vec<Ticket> {
    let read = |path: &str| std::fs::read_to_string(path).expect(path);
    let base = read(concat!(env!("CARGO_MANIFEST_DIR"), "/../tests/base.txt"));
    let circulations = read(concat!(env!("CARGO_MANIFEST_DIR"), "/../tests/L1.txt"));
    let base = base.lines().filter_map(|line| line.strip_prefix("ticket "));
    let digits = base.chain(circulations.lines().filter_map(|line| line.split(' ').nth(1)));
    digits.map(|hex| Ticket::from_bytes(bytes(hex.trim_matches('-')))).collect()
}

fn bytes(hex: &str) -> Vec<u8> {
    let digit = |at: usize| u8::from_str_radix(&hex[at..at + 2], 16).expect("two hexadecimal digits");
    (0..hex.len()).step_by(2).map(digit).collect()
}

/// Prints and parses; the words must be the same, each with a place in the text.
fn round_trip(ticket: &Ticket, nest: &Nest) {
    let names = Names {
        indices: ["x", "y1", "S", "E", "_", "inner"].map(String::from).to_vec(),
        arrays: vec!["bin".into(), "S".into()],
    };
    for printed in [nest.to_string(), text::print(nest, &names)] {
        let parsed = text::parse(&printed).unwrap_or_else(|error| panic!("{error}\n{printed}"));
        assert_eq!(parsed.nest, *nest, "\n{printed}");
        let words = parsed.nest.to_words().expect("a parsed nest has words");
        assert_eq!(words, ticket.words(), "\n{printed}");
        assert_eq!(parsed.places.words.len(), words.len(), "\n{printed}");
        let lines = printed.lines().count();
        assert!(parsed.places.words.iter().all(|span| (1..=lines).contains(&span.line)));
    }
}

#[test]
fn tickets_and_new_nests_read_back() {
    let (mut tried, mut moving, mut written) = (0, 0, 0);
    for ticket in tickets() {
        if let Ok(nest) = ticket.nest() {
            round_trip(&ticket, &nest);
            tried += 1;
            moving += usize::from(nest.steps.iter().any(|step| matches!(step, Step::Move { .. })));
        }
        if let Ok(new) = write(&ticket) {
            round_trip(&new, &new.nest().expect("a written nest is one"));
            written += 1;
        }
    }
    assert!(
        tried > 400 && moving > 200 && written > 150,
        "{tried} tickets, {moving} that move loops, {written} new nests"
    );
}

#[test]
fn whatever_is_judged_on_its_meaning_is_a_nest() {
    for ticket in tickets() {
        let refused = judge(&ticket).err().map_or(0, |refusal| refusal.number);
        assert!((1..=6).contains(&refused) || ticket.nest().is_ok());
    }
}

#[test]
fn extremes_read_back() {
    let source = "\
array A(-32768)
array B()

for i = max() to -32768/-3
  for j = max(-32768*i, 3, 3) to min((-i-32768)/0, i)
    for k = 0 to 1
      for l = 0 to 1
        for m = 0 to 1
          A(0) = 0
          A(i-32768*m) = first(A(32767*i-j+k+5), 7)
          A(1) = max(-5)
          B() = opaque()
          A(1) = opaque(B(), -1)
          A(1) = A(0) - 32768
          A(1) = B() + 0
          A(1) = first()

exchange -1 32767
skew 0 9 by 7
section -32768 by 1
move 9 to -1
";
    let nest: Nest = source.parse().expect("all of it is lenient");
    assert_eq!(nest.to_string(), source);
    let words = nest.to_words().expect("a parsed nest has words");
    assert_eq!(Nest::from_words(&words).expect("a nest"), nest);
}

#[test]
fn spellings_of_one_nest() {
    let plain: Nest = "array A(9)\nfor i = 0 to 3\nfor j = 2*i-1 to (i+1)/2\nA(2*i+j) = A(i) + 3"
        .parse()
        .expect("plain");
    let other: Nest = "  array  A( 9 ) # bins\n\n for i=0 to 1+2\n\tfor j = -1 + i*2 to (1+i) / 2\n A(j+2i)=1+A(i)+2"
        .parse()
        .expect("other");
    let minus: Nest = "array A(9)\nfor i = 0 to 3\nfor j = i+i−1 to (+i+1)/2\nA(j+2 i) = A(i) + 3"
        .parse()
        .expect("minus");
    assert_eq!(plain, other);
    assert_eq!(plain, minus);
}

#[test]
fn a_refusal_stands_in_the_text() {
    let cases = [
        ("array A(4)\nfor i = 0 to 3\n  A(i) = 1\nreverse 2\n", 6, Place::Step(1), (4, 1, 9)),
        ("array A(5000)\nfor i = 0 to 3\n  A(i) = 1\n", 4, Place::Word(10), (1, 9, 4)),
        ("array A(4)\nfor i = 0 to 4\n  A(i) = 1\n", 9, Place::Statement(1), (3, 3, 8)),
        (
            "array A(4)\nfor i = 0 to 4\n for j = 1 to 9999 # far too many\n  A(i) = 1\n",
            8,
            Place::Loop(2),
            (3, 2, 17),
        ),
        (
            "array A(4)\nfor i = 0 to 3\n  A(i) = A(i)+A(i)+A(i)+A(i)+A(i)\n",
            3,
            Place::Word(17),
            (3, 10, 24),
        ),
        ("array A(4)\nfor i = 0 to 3/0\n  A(i) = 1\n", 4, Place::Word(6), (2, 16, 1)),
        ("array A(4)\nfor i = 0 to 3\n  A(i) = A(i) - 5\n", 4, Place::Word(13), (3, 17, 1)),
        (
            "array A(4)\nfor i = 0 to 3\n  A(i) = A(3-i)\nsection 1 by 300\n",
            4,
            Place::Word(24),
            (4, 14, 3),
        ),
        (
            "array A(4)\nfor i = 0 to 3\n  A(i) = 1\nreverse 1\n move 1 to 1 # where it is\n",
            6,
            Place::Step(2),
            (5, 2, 11),
        ),
        (
            "array A(4)\nfor i = 0 to 3\n  A(i) = 1\nmove 2 to 1\n",
            6,
            Place::Step(1),
            (4, 1, 11),
        ),
        (
            "array A(4)\nfor i = 0 to 3\n  A(i) = 1\nmove 1 to -32768\n",
            4,
            Place::Word(21),
            (4, 11, 6),
        ),
        (
            "array A(4)\nfor i = 0 to 1\n for j = 0 to 2\n  A(i+j) = 1\nsection 2 by 2\nmove 3 to 1\nreverse 1\n",
            10,
            Place::Step(2),
            (6, 1, 11),
        ),
    ];
    for (source, number, place, (line, column, length)) in cases {
        let parsed = text::parse(source).expect(source);
        let ticket = Ticket::from_nest(&parsed.nest).expect(source);
        let refusal = judge(&ticket).expect_err(source);
        assert_eq!((refusal.number, refusal.place), (number, place), "{source}");
        assert_eq!(parsed.places.find(&refusal), Some(Span { line, column, length }), "{source}");
    }
}

#[test]
fn a_refusal_stands_among_the_words() {
    let source = "2 1 1 0 1 1 1 1 1 0 0 1 1 2 0  # loops\n2 1 4 2 2 3  # arrays\n1 3 0 1 0 1 1 1 2 0 1 0 0 0 1\n1 1 1 2 0 # exchange\n";
    let (words, places) = text::parse_words(source).expect("words");
    let refusal = judge(&Ticket::from_words(&words)).expect_err("out of order");
    assert_eq!(
        places.find(&refusal),
        Some(Span {
            line: 4,
            column: 3,
            length: 1
        })
    );
}

#[test]
fn errors_say_where_and_what() {
    let cases = [
        (
            "array A(4)\nfor i = 0 to 3\n  B(i) = 1",
            "3:3: 'B' is no array: declare it above the loops, as in 'array B(10)'",
        ),
        (
            "array A(4)\nfor i = 0 to 3\n  A(i, 0) = 1",
            "3:3: array A has 1 dimensions, and here 2 subscripts",
        ),
        ("array A(40000)", "1:9: 40000 is beyond the 16 bits of a word"),
        ("array A(4)\narray A(5)", "2:7: array A is declared twice"),
        (
            "array for(4)",
            "1:7: 'for' is a word of the text form and cannot be an array's name",
        ),
        ("for i = 0 to j\n", "1:14: 'j' is no index here: no index is known"),
        (
            "for i = 0 to 3\n  for j = i+1/2 to 5",
            "2:14: a limit is divided as a whole: put the sum in parentheses, as in (2*i+1)/3",
        ),
        (
            "for i = min(0, 1) to 3",
            "1:9: a lower side takes the largest, max( ), an upper one the smallest, min( ); here it is max( )",
        ),
        ("for i = 0", "1:10: expected 'to', found the end of the line"),
        (
            "for i = 0 to 3\n  for i = 0 to 3",
            "2:7: index i belongs to a loop outside this one",
        ),
        ("skew 1 2", "1:9: expected 'by', found the end of the line"),
        (
            "while true",
            "1:1: expected 'array', 'for', a statement such as 'A(i) = B(i)', 'exchange', 'reverse', 'skew', 'section' or 'move', found 'while'",
        ),
        ("move", "1:5: expected a loop's number, found the end of the line"),
        ("move 1 3", "1:8: expected 'to', found '3'"),
        ("move 1 to", "1:10: expected the loop's new place, found the end of the line"),
        ("move 1 to 3 0", "1:13: expected the end of the line, found '0'"),
        (
            "array move(4)",
            "1:7: 'move' is a word of the text form and cannot be an array's name",
        ),
        ("for move = 0 to 3", "1:5: 'move' is a word of the text form and cannot be an index"),
        (
            "array A(4)\nfor i = 0 to 3\n A(i) = 1 - A(i)",
            "3:13: a read cannot be taken away: rules are the sum, max( ), first( ) and opaque( )",
        ),
        ("array A(4); x", "1:11: ';' has no meaning here"),
        ("reverse 1 2", "1:11: expected the end of the line, found '2'"),
    ];
    for (source, message) in cases {
        assert_eq!(text::parse(source).expect_err(source).to_string(), message);
    }
    assert_eq!(
        Ticket::parse_words("1 2\n3 x4").expect_err("x4").to_string(),
        "2:3: expected a whole number from -32768 to 32767, found 'x4'"
    );
    assert!(Ticket::parse_words("32768").is_err());
    assert_eq!(
        Ticket::parse_words("-32768 # lowest").map(|ticket| ticket.words()),
        Ok(vec![-32768])
    );
}

/// Numbers that look random and are the same in every run.
fn numbers() -> impl FnMut(usize) -> usize {
    let mut state = 0x2545_f491_4f6c_dd1du64;
    move |below| {
        state ^= state << 13;
        state ^= state >> 7;
        state ^= state << 17;
        (state % below as u64) as usize
    }
}

#[test]
fn mangled_words_read_back_where_they_are_a_nest() {
    let mut number = numbers();
    let mut read = 0;
    for ticket in tickets().iter().cycle().take(4000) {
        let mut words = ticket.words();
        for _ in 0..=number(2) {
            if !words.is_empty() {
                let at = number(words.len());
                words[at] = [number(8) as i16 - 2, number(65536) as u16 as i16][number(2)];
            }
        }
        if let Ok(nest) = Nest::from_words(&words) {
            round_trip(&Ticket::from_words(&words), &nest);
            read += 1;
        }
    }
    assert!(read > 500, "{read} nests");
}

#[test]
fn mangled_texts_end_in_a_nest_or_a_message() {
    let source = "array A(4, 4) # bins\nfor i = max(0, 1/2) to 3\n for j = -i to min((2*i+1)/3, 3)\n  A(i, j) = max(A(i-1, 0), 5)\n\
                  skew 1 2 by -1\nmove 2 to 1\n";
    let pieces = [
        "(", ")", "/", "*", "-", "+", ",", "=", "for", "to", "array", " ", "\n", "#", "j", "A", "7", "99999", "max", "é", "−", "by",
    ];
    let mut number = numbers();
    for _ in 0..4000 {
        let mut chars: Vec<char> = source.chars().collect();
        for _ in 0..=number(3) {
            let at = number(chars.len());
            let until = (at + number(4)).min(chars.len());
            chars.splice(at..until, pieces[number(pieces.len())].chars());
        }
        let text: String = chars.into_iter().collect();
        match text::parse(&text) {
            Ok(parsed) => assert_eq!(parsed.nest.to_words().expect("words").len(), parsed.places.words.len(), "{text}"),
            Err(error) => assert!(error.span.line >= 1 && !text::excerpt(&text, error.span).is_empty()),
        }
    }
}

#[test]
fn names_go_with_their_loops() {
    let nest: Nest = "array A(1)\nfor i = 0 to 1\nfor j = 0 to 1\nfor k = 0 to 1\nfor l = 0 to 1\nA(0) = 1"
        .parse()
        .expect("a nest");
    let after = |steps: &str| {
        let steps = format!("array A(1)\n{steps}").parse::<Nest>().expect("steps").steps;
        Names::of(&nest).after(&steps).indices.join(" ")
    };
    assert_eq!(after("move 1 to 3"), "j k i l");
    assert_eq!(after("move 4 to 2"), "i l j k");
    assert_eq!(after("move 2 to 3"), after("exchange 2 3"));
    assert_eq!(after("move 1 to 3"), after("exchange 1 2\nexchange 2 3"));
    assert_eq!(after("section 1 by 2\nmove 1 to 5"), "E j k l S");
    for off in ["move 1 to 5", "move 0 to 1", "move 5 to 1", "move -1 to 2"] {
        assert_eq!(after(off), "i j k l", "{off}");
    }
}
