//! The tickets of request L2's design: what a reason tool answers for each, and what it leaves in lists of several lengths.

use reference::Answer;
use reference::reason::Record;

struct Case {
    words: String,
    answer: Answer,
    /// All of them, or the first ones of very many.
    records: Vec<Record>,
}

/// What lists are lent with.
const JUNK: Record = Record {
    source: [77; 4],
    sink: [-77; 4],
    source_statement: 770,
    sink_statement: 771,
    kind: 772,
};

fn bytes(words: &str) -> Vec<u8> {
    let words = words.split_whitespace().map(|word| word.parse::<i16>().expect("a word"));
    words.flat_map(i16::to_le_bytes).collect()
}

fn indices(words: &[&str]) -> [i16; 4] {
    let mut four = [0; 4];
    for (word, index) in words.iter().zip(&mut four) {
        *index = word.parse().expect("an index");
    }
    four
}

/// As in `0 1 > 1 0, 1 1 O`: source and sink, then both statements and the kind.
fn record(text: &str) -> Record {
    let words: Vec<&str> = text.split([' ', ',']).filter(|word| !word.is_empty()).collect();
    let (iterations, [source_statement, sink_statement, kind]) = words.split_last_chunk().expect("two statements and a kind");
    let (source, sink) = iterations.split_at(iterations.len() / 2);
    Record {
        source: indices(source),
        sink: indices(&sink[1..]),
        source_statement: source_statement.parse().expect("a statement"),
        sink_statement: sink_statement.parse().expect("a statement"),
        kind: u16::from(kind.as_bytes()[0]),
    }
}

fn case(words: &str, number: u8, place: u32, count: u32, records: &str) -> Case {
    Case {
        words: words.into(),
        answer: Answer { number, place, count },
        records: records.split(';').filter(|text| !text.is_empty()).map(record).collect(),
    }
}

/// A ticket that is refused with 10 at the step.
fn out_of_order(words: &str, step: u32, count: u32, records: &str) -> Case {
    case(words, 0, step, count, records)
}

fn cases() -> Vec<Case> {
    let folded = "2 1 1 0 1 1 1 1 1 0 0 1 1 2 0 2 1 4 2 2 3 1 3 0 1 0 1 1 1 2 0 1 0 0 0 1";
    let skewed = "2 1 1 1 1 1 2 1 1 0 0 1 1 2 0 1 2 3 4 1 3 0 1 0 1 0 0 0 1 1 1 -1 1 0 1 0 1 2 3 1 2 1 1 1 2 0";
    let equal_reads = "1 1 1 0 1 1 2 1 1 1 1 1 0 1 0 0 2 1 0 0 1 0 0 1 2 1 0 0";
    let two_statements = "1 1 1 0 1 1 2 1 1 1 2 1 0 1 0 0 0 1 1 1 0 0 0 1 2 1 0 0";
    let reversed_twice = "2 1 1 0 1 1 2 1 1 1 0 1 1 3 0 1 2 3 4 1 3 0 1 0 1 0 0 0 1 1 1 0 1 0 -1 0 1 2 2 2 0 0 2 2 0 0";
    let exchanged_first = "2 1 1 0 1 1 1 1 1 0 0 1 1 2 0 1 2 2 3 1 1 0 1 0 1 0 0 0 0 0 2 1 1 2 0 2 1 0 0";
    let circulated = "3 1 1 -1 1 1 0 1 1 0 0 1 1 1 0 1 1 -2 0 0 1 1 -1 0 0 1 1 4 1 1 0 1 3 1 0 1 0 1 5 3 1 0";
    let limits_full = "4 1 1 0 1 1 0 3 1 0 1 1 0 2 1 0 3 1 1 0 0 2 1 0 0 0 1 0 3 0 1 1 0 0 0 4 1 0 -12 1 1 1 0 -6 1 1 1 0 0 1 1 1 0 6 1 1 1 \
                       1 0 0 0 0 1 1 1 1 1 0 1 0 0 0 0 0 0 2 5 4 1 0 2 1 0 0";
    let sections = |extent, constant| format!("1 1 1 0 1 1 3 1 1 {extent} 1 1 0 1 {constant} 1 1 1 0 1 2 4 1 2 0 1 1 2 0");
    let one_element = |last: u32| format!("1 1 1 0 1 1 {last} 1 1 1 1 1 0 1 0 0 0 1 2 1 0 0");
    let pairs_up_to = |last: u32| (0..last).flat_map(move |p| (p + 1..=last).map(move |q| format!("{p} > {q}, 1 1 O")));
    vec![
        out_of_order(&format!("{folded} 1 1 1 2 0"), 1, 2, "0 1 > 1 0, 1 1 O; 0 2 > 1 1, 1 1 O"),
        out_of_order(skewed, 2, 0, ""),
        out_of_order(
            equal_reads,
            1,
            9,
            "0 > 1, 1 1 F; 0 > 1, 1 1 A; 0 > 1, 1 1 O; 0 > 2, 1 1 F; 0 > 2, 1 1 A; 0 > 2, 1 1 O; 1 > 2, 1 1 F; 1 > 2, 1 1 A; 1 > 2, 1 1 O",
        ),
        out_of_order(
            two_statements,
            1,
            12,
            "0 > 1, 1 1 O; 0 > 1, 1 2 O; 0 > 1, 2 1 O; 0 > 1, 2 2 O; 0 > 2, 1 1 O; 0 > 2, 1 2 O; 0 > 2, 2 1 O; 0 > 2, 2 2 O; \
             1 > 2, 1 1 O; 1 > 2, 1 2 O; 1 > 2, 2 1 O; 1 > 2, 2 2 O",
        ),
        out_of_order(
            reversed_twice,
            1,
            6,
            "0 1 > 0 2, 1 1 F; 0 2 > 0 3, 1 1 F; 1 1 > 1 2, 1 1 F; 1 2 > 1 3, 1 1 F; 2 1 > 2 2, 1 1 F; 2 2 > 2 3, 1 1 F",
        ),
        out_of_order(
            exchanged_first,
            2,
            6,
            "0 0 > 0 1, 1 1 O; 0 0 > 0 2, 1 1 O; 0 1 > 0 2, 1 1 O; 1 0 > 1 1, 1 1 O; 1 0 > 1 2, 1 1 O; 1 1 > 1 2, 1 1 O",
        ),
        out_of_order(
            circulated,
            1,
            4,
            "-1 0 -1 > 0 0 -2, 1 1 O; -1 0 -1 > 0 1 -2, 1 1 O; -1 1 -1 > 0 0 -2, 1 1 O; -1 1 -1 > 0 1 -2, 1 1 O",
        ),
        case(limits_full, 11, 1, 0, ""),
        out_of_order(&sections(6, 2), 2, 0, ""),
        out_of_order(&sections(5, 1), 2, 1, "1 > 2, 1 1 F"),
        out_of_order(&one_element(299), 1, 44_850, &pairs_up_to(299).collect::<Vec<_>>().join(";")),
        out_of_order(&one_element(4095), 1, 8_386_560, "0 > 1, 1 1 O; 0 > 2, 1 1 O; 0 > 3, 1 1 O"),
        case(&format!("{folded} 0"), 0, 0, 6, ""),
        case("", 1, 1, 0, ""),
    ]
}

/// Lists of no record, one, one too few, exactly as many, and more; of very many, the first ones alone.
pub fn hold(reason: impl Fn(&[u8], &mut [Record]) -> Answer) {
    for Case { words, answer, records } in cases() {
        let (ticket, found) = (bytes(&words), records.len());
        let more = if answer.count > 1_000_000 { found } else { found + 3 };
        for length in [0, 1, found.saturating_sub(1), found, more] {
            let mut list = vec![JUNK; length];
            assert_eq!(reason(&ticket, &mut list), answer, "{length} records lent: {words}");
            let mut left = records.clone();
            left.resize(found.max(length), JUNK);
            assert_eq!(list, left[..length], "{length} records lent: {words}");
        }
    }
}
