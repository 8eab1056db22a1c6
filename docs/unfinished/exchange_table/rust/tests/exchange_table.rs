//! The table of exchanges: the text that the program `exchange_table` prints, which the gate compares with its stored output, is that of the
//! library's constant and that of the reference. That both are the rule's is proved.

use reference::directions::Sign::{self, Equal, Greater, Less};
use reference::exchanges;
use std::fs;
use std::path::{Path, PathBuf};

fn path(file: &str) -> PathBuf {
    Path::new(env!("CARGO_MANIFEST_DIR")).join("../crates").join(file)
}

fn read(path: &Path) -> String {
    fs::read_to_string(path).unwrap_or_else(|error| panic!("{}: {error}", path.display()))
}

/// What the program has to print.
fn printed() -> String {
    read(&path("exchange_table/stdout"))
}

#[test]
fn it_has_a_number_in_each_of_3645_lines() {
    let text = printed();
    assert_eq!(text.len(), 14_030);
    assert_eq!(text.lines().count(), 5 * 729);
    assert!(text.ends_with('\n'));
    assert!(text.starts_with("0\n1\n2\n3\n4\n"));
    assert!(text.ends_with("\n724\n727\n722\n725\n728\n"));
}

/// The library's source of the constant, one number a line: those of the table in their order.
fn constant(table: &str) -> String {
    let mut source = String::from(
        "// The numbers that the program `exchange_table` prints (`rust/tests/exchange_table.rs` compares the two texts, and writes this one anew).
use model::ENTRIES;

// For each pair of neighbouring loops, from the outermost, and each number of a vector, rising: the number after the exchange.
pub const EXCHANGE_MAP: [u16; ENTRIES] = [
",
    );
    for (index, number) in table.lines().enumerate() {
        let (place, first) = (index / 729 + 1, index % 729 == 0);
        let row = if first {
            format!(" // loops {place} and {}", place + 1)
        } else {
            String::new()
        };
        source.push_str(&format!("    {number},{row}\n"));
    }
    source + "];\n"
}

/// With HURKEZTOR_TABLE=write in the environment, the library's source is written anew.
#[test]
fn the_constant_of_the_library_is_its_text() {
    let (path, source) = (path("step_exchange_map/src/map.rt"), constant(&printed()));
    if std::env::var_os("HURKEZTOR_TABLE").is_some_and(|word| word == "write") {
        fs::write(&path, &source).unwrap_or_else(|error| panic!("{}: {error}", path.display()));
    }
    assert!(read(&path) == source, "the constant and the printed table differ");
}

/// By document 02 alone.
#[test]
fn the_reference_has_the_same_text() {
    assert!(exchanges::table() == printed(), "the reference's table differs");
}

/// The entry of a place, counted from 1, and a number.
fn entry(table: &str, place: usize, number: usize) -> usize {
    let line = table.lines().nth((place - 1) * 729 + number);
    line.expect("a line").parse().expect("a number")
}

/// Those of the design. With the innermost place first, the outermost digit least significant, numbers from 1 or the places one further in, some
/// of them would be others.
#[test]
fn some_entries() {
    let table = printed();
    for (place, number, after) in [
        (1, 0, 0),
        (1, 81, 243),
        (1, 243, 81),
        (1, 162, 486),
        (1, 364, 364),
        (1, 728, 728),
        (2, 27, 81),
        (3, 27, 9),
        (4, 5, 11),
        (5, 1, 3),
        (5, 3, 1),
    ] {
        assert_eq!(entry(&table, place, number), after, "place {place}, number {number}");
    }
}

/// A nest of two loops has `<>` of case 1, of three the `<=>` of the course: the missing loops count as =, whatever the place.
#[test]
fn vectors_of_few_loops() {
    let table = printed();
    let vectors: [(usize, &[Sign], &[Sign]); 4] = [
        (1, &[Less, Greater], &[Greater, Less]),
        (1, &[Equal, Less], &[Less, Equal]),
        (2, &[Less, Equal, Greater], &[Less, Greater, Equal]),
        (
            5,
            &[Equal, Equal, Equal, Equal, Less, Greater],
            &[Equal, Equal, Equal, Equal, Greater, Less],
        ),
    ];
    for (place, before, after) in vectors {
        assert_eq!(
            entry(&table, place, exchanges::number(before)),
            exchanges::number(after),
            "{before:?}"
        );
    }
    assert_eq!(exchanges::number(&[Less, Greater]), 202);
    assert_eq!(exchanges::number(&[Greater, Less]), 526);
}

/// An exchange is its own inverse, and one at a place leaves the other places alone.
#[test]
fn exchanged_twice_is_as_before() {
    let table = printed();
    let entries: Vec<usize> = table.lines().map(|line| line.parse().expect("a number")).collect();
    for row in entries.chunks(729) {
        for (number, &after) in row.iter().enumerate() {
            assert_eq!(row[after], number);
        }
    }
}
