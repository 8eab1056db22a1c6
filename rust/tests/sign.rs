//! The sign of two indices is right for every pair of numbers, and no branch works it out: not in its source, not in its middle form, not in the
//! archive's machine code. No other function that numbers vectors compares indices.

use hurkeztor::{Sign, entries};
use reference::tickets::Random;
use std::fs;
use std::path::{Path, PathBuf};
use std::process::Command;

/// The first index, the second and the sign. The first two pairs are wrong by any way through their difference, which has 65 bits.
const PAIRS: [(i64, i64, i64); 10] = [
    (i64::MIN, i64::MAX, -1),
    (i64::MAX, i64::MIN, 1),
    (i64::MIN, i64::MIN, 0),
    (i64::MAX, i64::MAX, 0),
    (0, i64::MIN, 1),
    (i64::MIN, 0, -1),
    (0, i64::MAX, -1),
    (-1, 0, -1),
    (0, 0, 0),
    (1, 0, 1),
];

#[test]
fn the_pairs_of_the_design() {
    for (first, second, sign) in PAIRS {
        assert_eq!(entries::sign(first, second), sign, "{first} {second}");
        let expected = [Sign::Less, Sign::Equal, Sign::Greater][(sign + 1) as usize];
        assert_eq!(Sign::of(first, second), expected, "{first} {second}");
    }
}

/// Two numbers of 64 bits: any two, close ones, equal ones, one at an end, and such as a ticket has.
fn pair(random: &mut Random) -> (i64, i64) {
    let first = random.bits() as i64;
    match random.below(5) {
        0 => (first, random.bits() as i64),
        1 => (first, first.wrapping_add(random.between(-2, 2))),
        2 => (first, first),
        3 => (random.pick(&[i64::MIN, i64::MAX]), first),
        _ => (random.between(-32767, 32767), random.between(-32767, 32767)),
    }
}

#[test]
fn a_million_pairs() {
    let mut random = Random::of(3, 0);
    let mut counts = [0; 3];
    for _ in 0..1_000_000 {
        let (first, second) = pair(&mut random);
        let expected = first.cmp(&second) as i64;
        assert_eq!(entries::sign(first, second), expected, "{first} {second}");
        counts[(expected + 1) as usize] += 1;
    }
    assert!(counts.iter().all(|&count| count > 100_000), "{counts:?}");
}

fn root() -> PathBuf {
    Path::new(env!("CARGO_MANIFEST_DIR")).join("..")
}

/// What a command of the toolchain or of the compiler's tools prints in a folder.
fn printed(folder: &Path, command: &str, words: &[&str]) -> String {
    let run = Command::new(command).args(words).current_dir(folder).output();
    let output = run.unwrap_or_else(|error| panic!("{command} has to be installed: {error}"));
    let (said, failed) = (String::from_utf8_lossy(&output.stdout), String::from_utf8_lossy(&output.stderr));
    assert!(output.status.success(), "{command} {words:?}:\n{said}{failed}");
    String::from_utf8(output.stdout).expect("a text")
}

/// The body of a function of a crate.
fn source(library: &str, function: &str) -> String {
    let path = root().join("crates").join(library).join("src/lib.rt");
    let text = fs::read_to_string(&path).unwrap_or_else(|error| panic!("{}: {error}", path.display()));
    let (_, from) = text.split_once(&format!("fn {function}(")).expect("the function");
    let (_, body) = from.split_once("\n{\n").expect("its body");
    body.split_once("\n}\n").expect("its end").0.to_string()
}

#[test]
fn no_branch_in_the_source() {
    assert_eq!(source("integers", "sign_of").trim(), "(b < a) as i64 - (a < b) as i64");
    assert_eq!(
        source("dependence_vectors", "sign").trim(),
        "(integers::sign_of(a, b) + 1) as usize"
    );
    assert_eq!(source("hurkeztor", "hurkeztor_sign").trim(), "integers::sign_of(source, sink)");
}

/// The crates whose functions number vectors.
const NUMBERING: [&str; 5] = [
    "dependence_vectors",
    "dependence_pair_search",
    "dependence_search",
    "pair_partners",
    "pair_records",
];

/// The middle form of a crate, which is what is proved of it and what the archive is made of: rt keeps it beside the proofs.
fn middle_form(library: &str) -> String {
    let folder = root().join(format!("crates/{library}/out/rlib/{library}.rlib"));
    let path = folder.join("toolchain/mir.json");
    fs::read_to_string(&path).unwrap_or_else(|error| panic!("{}: {error}", path.display()))
}

/// The functions of a middle form: each one's name and its text, which closes with the bracket that it opens with.
fn functions(program: &str) -> Vec<(&str, &str)> {
    let mut found = Vec::new();
    let mut rest = program.strip_prefix('[').expect("a list");
    while let Some(from) = rest.strip_prefix("[\"") {
        let name = from.split('"').next().expect("a name");
        let mut depth = 0;
        let end = rest.find(|c| {
            depth += i32::from(c == '[') - i32::from(c == ']');
            depth == 0
        });
        let (own, after) = rest.split_at(end.expect("its end") + 1);
        found.push((name, own));
        rest = after.trim_start_matches([',', '\n', ' ']);
    }
    assert_eq!(rest.trim_end(), "]", "the end of the list");
    found
}

#[test]
fn no_branch_in_the_middle_form() {
    // It is the crate above the other four and above integers: what it stands on is proved and kept, if it was not.
    printed(&root().join("crates/pair_records"), "rt", &["lib"]);
    let form = |library: &str, function: &str| {
        let program = middle_form(library);
        let name = format!("{library}::{function}");
        let found = functions(&program).into_iter().find(|function| function.0 == name);
        found.expect(&name).1.to_string()
    };
    let sign = form("integers", "sign_of");
    assert_eq!(sign.matches("{\"Lt\":\"Signed\"}").count(), 2, "{sign}");
    assert_eq!(sign.matches("{\"Sub\":\"Signed\"}").count(), 1, "{sign}");
    for (text, calls) in [(sign, 0), (form("dependence_vectors", "sign"), 1)] {
        for branch in ["\"If\"", "\"Switch", "\"Loop\"", "\"Block\"", "\"Exit\""] {
            assert!(!text.contains(branch), "{text}");
        }
        assert_eq!(text.matches("\"Call").count(), calls, "{text}");
    }

    // whatever numbers a vector compares no indices itself
    for library in NUMBERING {
        let program = middle_form(library);
        let own = format!("{library}::");
        let of_library = functions(&program);
        assert!(!of_library.is_empty(), "{library}");
        for (name, text) in of_library {
            assert!(name.starts_with(&own), "{name}");
            for compared in ["Lt", "Le", "Gt", "Ge"] {
                assert!(
                    !text.contains(&format!("{{\"{compared}\":\"Signed\"}}")),
                    "{name} compares signed numbers"
                );
            }
        }
    }
}

/// The names of a function's instructions in the archive, up to its end.
fn instructions(function: &str) -> Vec<String> {
    let symbol = format!("--disassemble={function}");
    let code = printed(
        &root(),
        "objdump",
        &["-d", "--no-show-raw-insn", &symbol, env!("HURKEZTOR_ARCHIVE")],
    );
    let (_, body) = code.split_once(&format!("<{function}>:\n")).expect(function);
    let lines = body.lines().take_while(|line| !line.is_empty());
    let names = lines.filter_map(|line| line.split_once(":\t")?.1.split_whitespace().next());
    names.map(String::from).collect()
}

#[test]
fn no_jump_in_the_machine_code() {
    let by_itself = instructions("hurkeztor_sign");
    let (sign, after) = by_itself.split_at(by_itself.iter().position(|name| name == "ret").expect("its end"));
    assert!(after[1..].iter().all(|name| name.starts_with("nop")), "{by_itself:?}");
    assert!(sign.iter().any(|name| name == "sub"), "{by_itself:?}");
    assert!(!sign.iter().any(|name| name.starts_with('j') || name == "call"), "{by_itself:?}");

    // inlined in the search it is the same, for each sign of the vectors of one to four loops: two answers from one comparison; or those of two signs
    // at once, from two comparisons of two pairs of indices each
    let inlined = instructions("dependence_search::mark_sources");
    let count = |first: &str, second: &str| inlined.windows(2).filter(|pair| pair[0] == first && pair[1] == second).count();
    let signs = count("setl", "setg") + 2 * count("pcmpgtq", "pcmpgtq");
    assert!(signs >= 1 + 2 + 3 + 4, "{signs} signs");
}
