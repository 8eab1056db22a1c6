//! The outside vectors of the repository's `tests/base.txt`, all answers of each, of `tests/L1.txt` and of `tests/L2.txt`.

use std::fs;
use std::path::Path;

use reference::reason::Record;
use reference::{Answer, reading};

const PATTERN: u8 = 0xa5;

fn bytes(hex: &str) -> Vec<u8> {
    if hex == "-" {
        return vec![];
    }
    let pairs = (0..hex.len()).step_by(2).map(|at| &hex[at..at + 2]);
    pairs
        .map(|pair| u8::from_str_radix(pair, 16).expect("hexadecimal digits"))
        .collect()
}

fn number<T: std::str::FromStr>(field: &str) -> T {
    field.parse().unwrap_or_else(|_| panic!("not a number: {field}"))
}

fn answer(number_field: &str, place: &str, count: u32) -> Answer {
    Answer {
        number: number(number_field),
        place: number(place),
        count,
    }
}

fn store<'a>(words: impl IntoIterator<Item = &'a str>) -> Vec<u32> {
    words.into_iter().filter(|word| *word != "-").map(number).collect()
}

/// The answer, and the buffer with what was written at its front.
fn into_buffer(ticket: &[u8], entry: fn(&[u8], &mut [u8]) -> Answer, row: [&str; 4]) {
    let [capacity, n, place, hex] = row;
    let written = bytes(hex);
    let mut expected = vec![PATTERN; number(capacity)];
    let mut buffer = expected.clone();
    expected[..written.len()].copy_from_slice(&written);
    let answered = entry(ticket, &mut buffer);
    assert_eq!(answered, answer(n, place, written.len() as u32), "{row:?}");
    assert_eq!(buffer, expected, "{row:?}");
}

fn quick(ticket: &[u8], row: [&str; 5]) {
    let [first, second, n, place, word] = row;
    let expected = answer(n, place, u32::from(word == "apart"));
    assert_eq!(reference::quick(ticket, number(first), number(second)), expected, "{row:?}");
}

fn run(ticket: &[u8], expected: [&str; 3], mut lent: Vec<u32>, left: Vec<u32>) {
    let [n, place, count] = expected;
    assert_eq!(reference::run(ticket, &mut lent), answer(n, place, number(count)));
    assert_eq!(lent, left);
}

fn judge(ticket: &[u8], expected: [&str; 3]) {
    let [n, place, count] = expected;
    assert_eq!(reference::judge(ticket), answer(n, place, number(count)));
}

fn lines(name: &str) -> Vec<String> {
    let file = Path::new(env!("CARGO_MANIFEST_DIR")).join("../../tests").join(name);
    let text = fs::read_to_string(file).expect("the outside vectors");
    text.lines().filter(|line| !line.is_empty()).map(String::from).collect()
}

/// Document 01's answers. It refuses kind 5, which document 02 adds: the answers to the one ticket with that word are no longer these.
#[test]
fn base() {
    let (mut ticket, mut rows, mut left_out) = (vec![], 0, 0);
    for line in lines("base.txt") {
        println!("{line}");
        let row: Vec<&str> = line.split(' ').collect();
        if row[0] == "ticket" {
            ticket = bytes(row[1]);
            left_out += usize::from(reading::kinds(&ticket).contains(&5));
        }
        rows += 1;
        if reading::kinds(&ticket).contains(&5) {
            continue;
        }
        match row[..] {
            ["ticket", _] => {}
            ["judge", n, place, count] => judge(&ticket, [n, place, count]),
            ["write", capacity, n, place, hex] => into_buffer(&ticket, reference::write, [capacity, n, place, hex]),
            ["list", capacity, n, place, hex] => into_buffer(&ticket, reference::list, [capacity, n, place, hex]),
            ["quick", first, second, n, place, word] => quick(&ticket, [first, second, n, place, word]),
            ["run", n, place, count, ..] => {
                let parting = row.iter().position(|field| *field == ">").expect("a store lent and a store left");
                let (lent, left) = (row[4..parting].to_vec(), row[parting + 1..].to_vec());
                run(&ticket, [n, place, count], store(lent), store(left));
            }
            _ => panic!("a row of no known kind"),
        }
    }
    assert_eq!((rows, left_out), (6 * 262, 1));
}

#[test]
fn circulations() {
    let rows = lines("L1.txt");
    for line in &rows {
        println!("{line}");
        let row: Vec<&str> = line.split(' ').collect();
        let ticket = bytes(row[1]);
        match [&row[..1], &row[2..]].concat()[..] {
            ["judge", "->", n, place, count] => judge(&ticket, [n, place, count]),
            ["write", capacity, "->", n, place, hex] => into_buffer(&ticket, reference::write, [capacity, n, place, hex]),
            ["list", capacity, "->", n, place, hex] => into_buffer(&ticket, reference::list, [capacity, n, place, hex]),
            ["quick", first, second, "->", n, place, word] => quick(&ticket, [first, second, n, place, word]),
            ["run", lent, "->", n, place, count, left] => run(&ticket, [n, place, count], store(lent.split(',')), store(left.split(','))),
            _ => panic!("a row of no known kind"),
        }
    }
    assert_eq!(rows.len(), 395);
    let circulate = rows
        .iter()
        .filter(|row| reading::kinds(&bytes(row.split(' ').nth(1).expect("a ticket"))).contains(&5));
    assert!(circulate.count() > 200);
}

/// As in `0,1,0,0:1,0,0,0:1:1:O`.
fn record(text: &str) -> Record {
    let fields: Vec<&str> = text.split(':').collect();
    let indices = |field: &str| {
        let indices: Vec<i16> = field.split(',').map(number).collect();
        <[i16; 4]>::try_from(indices).expect("four indices")
    };
    Record {
        source: indices(fields[0]),
        sink: indices(fields[1]),
        source_statement: number(fields[2]),
        sink_statement: number(fields[3]),
        kind: u16::from(fields[4].as_bytes()[0]),
    }
}

/// The number and place of a row with pairs, or decided by the table alone, are the judge's.
#[test]
fn reasons() {
    let junk = record("-7,-7,-7,-7:-7,-7,-7,-7:7:7:?");
    let (rows, mut pairs, mut table) = (lines("L2.txt"), 0, 0);
    for line in &rows {
        println!("{line}");
        let row: Vec<&str> = line.split(' ').collect();
        let ["reason", ticket, lent, "->", what, n, place, count, records] = row[..] else {
            panic!("a row of no known kind");
        };
        let ticket = bytes(ticket);
        let mut list = vec![junk; number(lent)];
        let mut expected: Vec<Record> = records.split(';').filter(|text| *text != "-").map(record).collect();
        let answered = reference::reason(&ticket, &mut list);
        if what == "judge" {
            assert_eq!(answered, answer(n, place, number(count)));
        } else {
            assert_eq!(answered, answer("0", place, number(count)));
            judge(&ticket, [n, place, "0"]);
        }
        assert_eq!(
            expected.len(),
            number::<usize>(count).min(list.len()) * usize::from(what == "pairs")
        );
        expected.resize(list.len(), junk);
        assert_eq!(list, expected);
        pairs += usize::from(what == "pairs");
        table += usize::from(what == "table");
    }
    assert_eq!((rows.len(), pairs, table), (119, 14, 14));
}
