//! Tickets that tell close readings of document 01 apart, and its mistakes that pass the range board.

mod words;

use reference::{judge, list, quick, run};
use words::{CASE_1, accepted, bytes, judged, listing, new_nest, refused};

#[test]
fn products_stand_in_the_place_of_their_limit() {
    let nest = new_nest("2 2 1 0 1 -1 1 1 0 2 1 -1 1 1 0 0 1 1 0 0 1 1 1 1 1 1 1 0 0 0 0 1 1 1 2 0");
    assert!(nest.starts_with("2 3 1 -1 1 -2 1 0 1 1 0 "), "{nest}");
}

#[test]
fn a_result_stays_on_the_side_of_its_limit() {
    // j from −i to 2 − i: c is −1 on both sides.
    let nest = "2 1 1 0 1 1 2 1 1 0 -1 1 1 2 -1 1 2 3 5 1 1 0 1 0 1 0 2 1 1 0 1 1 1 2 0";
    let nest = new_nest(nest);
    assert!(nest.starts_with("2 1 1 -2 1 1 2 2 1 0 0 1 0 -1 2 1 2 0 1 2 -1 "), "{nest}");
}

#[test]
fn values_are_cut_as_they_are_found() {
    // j from 2i to 2i − 1 is empty, yet both its values are cut to 32767, and the least does not exceed the greatest.
    let nest = "2 1 1 32767 1 1 32767 1 1 0 2 1 1 -1 2 1 1 9 1 1 0 1 0 0 0 0 0";
    assert_eq!(quick(&bytes(nest), 1, 1), accepted(0));
}

#[test]
fn step_words_offend_one_by_one() {
    let start = CASE_1;
    assert_eq!(judged(start, "1 1 2 3 0"), refused(6, 1));
    assert_eq!(judged(start, "1 1 2 -32768 0"), refused(4, 40));
    assert_eq!(judged(start, "1 1 2"), refused(1, 40));
    assert_eq!(judged(start, "1 1 0 -32768 9"), refused(6, 1));
    assert_eq!(judged(start, "1 2 3 0 0"), refused(6, 1));
    assert_eq!(judged(start, "1 2 -32768 0 0"), refused(4, 39));
    assert_eq!(judged(start, "1 2 1 1 0"), refused(4, 40));
    assert_eq!(judged(start, "1 3 2 1 1"), refused(6, 1));
    assert_eq!(judged(start, "1 3 1 2 0"), refused(4, 41));
    assert_eq!(judged(start, "1 4 1 1 0"), refused(4, 40));
    assert_eq!(judged(start, "5 4 1 2 0 4 1 2 0 4 1 2 0 4 1 2 0 4 1 1 0"), refused(6, 5));
    assert_eq!(judged(start, "-32768"), refused(3, 37));
    assert_eq!(judged(start, "9"), refused(3, 37));
    assert_eq!(judged(start, "0 0"), refused(2, 38));
}

#[test]
fn torn_and_overhanging_bytes() {
    assert_eq!(judge(&[]), refused(1, 1));
    assert_eq!(judge(&[1]), refused(1, 1));
    let whole = bytes(&format!("{CASE_1} 0"));
    assert_eq!(judge(&whole[..whole.len() - 1]), refused(1, 37));
    assert_eq!(judge(&[whole.as_slice(), &[0]].concat()), refused(2, 38));
}

#[test]
fn opaque_comes_before_a_wrong_store() {
    let opaque = bytes("1 1 1 0 1 1 0 1 1 2 2 1 0 1 0 0 0 0 0 1 0 0 0 0");
    let mut store = [7];
    assert_eq!(run(&opaque, &mut store), refused(15, 2));
    let sum = bytes("1 1 1 0 1 1 0 1 1 2 1 1 5 1 0 0 1 1 1 0 0");
    assert_eq!(run(&sum, &mut store), refused(16, 0));
    let mut store = [7, u32::MAX];
    assert_eq!(run(&sum, &mut store), accepted(1));
    assert_eq!(store, [4, u32::MAX]);
}

#[test]
fn rule_2_compares_unsigned() {
    let largest = bytes("1 1 1 0 1 1 0 1 1 2 1 2 5 1 0 0 1 1 1 0 0");
    let mut store = [7, u32::MAX];
    assert_eq!(run(&largest, &mut store), accepted(1));
    assert_eq!(store, [u32::MAX, u32::MAX]);
}

#[test]
fn rule_3_needs_a_read_and_no_constant() {
    assert_eq!(judge(&bytes("1 1 1 0 1 1 0 1 1 2 1 3 1")), refused(4, 13));
    assert_eq!(judge(&bytes("1 1 1 0 1 1 0 1 1 2 1 3 0 1 0 0 0 0")), refused(3, 17));
}

#[test]
fn reversing_twice_is_refused_where_once_is() {
    let nest = "1 1 1 1 1 1 3 1 1 4 1 1 0 1 0 1 1 1 -1 1";
    assert_eq!(judged(nest, "2 2 1 0 0 2 1 0 0"), refused(10, 1));
}

#[test]
fn signs_are_not_joined_loop_by_loop() {
    // =< and <> stand, << does not: A(i,j) = A(i,j-1) + A(i-1,j+1).
    let nest = "2 1 1 1 1 1 2 1 1 1 0 1 1 2 0 1 2 3 4 1 1 0 1 0 1 0 0 0 1 2 1 0 1 0 -1 0 1 1 -1 1 0 1 0 1 0";
    assert_eq!(listing(nest), "2 4 2\nF 1 1 <>\nF 1 1 =<\n");
}

#[test]
fn overfull_is_tested_at_the_last_extent() {
    // 4096 × 4096 is overfull, and the bad extent before the end is met first.
    assert_eq!(judge(&bytes("1 1 1 0 1 1 0 1 3 4096 4096 4097")), refused(4, 12));
    assert_eq!(judge(&bytes("1 1 1 0 1 1 0 1 3 4096 4096 1")), refused(5, 12));
    assert_eq!(judge(&bytes("1 1 1 0 1 1 0 2 2 4096 4 1 1")), refused(5, 13));
}

#[test]
fn partial_points_above_an_empty_loop_count() {
    let body = "1 1 1 1 1 0 1 0 0 0 0 0";
    assert_eq!(judge(&bytes(&format!("2 1 1 0 1 1 4096 1 1 0 0 1 1 -1 0 {body}"))), refused(8, 1));
    assert_eq!(judge(&bytes(&format!("2 1 1 0 1 1 4095 1 1 0 0 1 1 -1 0 {body}"))), accepted(0));
}

#[test]
fn far_comes_before_crowded_in_one_loop() {
    // j from 0 to 32766 + i: crowded at once, and far where i is 2.
    let nest = "2 1 1 0 1 1 2 1 1 0 0 1 1 32766 1 1 1 1 1 1 0 1 0 0 0 0 0";
    assert_eq!(judge(&bytes(nest)), refused(7, 2));
}

#[test]
fn the_first_statement_off_the_array_is_told() {
    // i from −1 to 1, extent 3: A(i+1) stays within, A(i) leaves in the first iteration, A(i+2) in the last one.
    let statement = |constant: i64| format!("1 0 1 {constant} 1 0");
    let nest = |one, other| format!("1 1 1 -1 1 1 1 1 1 3 2 {} {} 0", statement(one), statement(other));
    assert_eq!(judge(&bytes(&nest(1, 0))), refused(9, 2));
    assert_eq!(judge(&bytes(&nest(2, 0))), refused(9, 1));
    assert_eq!(judge(&bytes(&nest(1, 1))), accepted(3));
}

#[test]
fn no_iterations_leave_no_array() {
    assert_eq!(judge(&bytes("1 1 1 0 1 1 -1 1 1 1 1 1 0 1 99 0 0 0")), accepted(0));
}

#[test]
fn an_exchange_alone_drops_repeats() {
    // The ticket gives i ≥ 0 twice.
    let nest = "2 2 1 0 1 0 1 1 1 1 1 0 0 1 1 1 0 1 2 2 2 1 1 0 1 0 1 0 0 0 1 0";
    assert!(new_nest(&format!("{nest} 0")).starts_with("2 2 1 0 1 0 1 1 1 "));
    assert!(new_nest(&format!("{nest} 1 3 1 2 1")).starts_with("2 2 1 0 1 0 1 1 1 "));
    assert!(new_nest(&format!("{nest} 1 1 1 2 0")).starts_with("2 1 1 0 1 1 1 1 1 0 0 1 1 1 0 "));
}

#[test]
fn empty_spaces_have_big_numbers_too() {
    // p × w is 128 × 256 = 32768, and 127 × 256 is not too big.
    let nest = |p: i64| format!("1 1 {p} 0 1 1 -1 1 1 1 1 1 0 1 0 0 0");
    assert_eq!(judged(&nest(128), "1 4 1 256 0"), refused(12, 1));
    assert_eq!(judged(&nest(127), "1 4 1 256 0"), accepted(0));
}

#[test]
fn sprawl_begins_beyond_100_000() {
    // i and j are n; three skews make j 4n.
    let nest = |n: i64| format!("2 1 1 {n} 1 1 {n} 1 1 {n} 0 1 1 {n} 0 1 1 1 1 1 0 1 0 0 0 0");
    let skews = "3 3 1 2 1 3 1 2 1 3 1 2 1";
    assert_eq!(judged(&nest(25_000), skews), accepted(1));
    assert_eq!(judged(&nest(25_001), skews), refused(13, 2));
}

#[test]
fn list_and_quick_judge_the_step_words_alone() {
    let ticket = bytes(&format!("{CASE_1} 1 1 1 3 0"));
    assert_eq!(list(&ticket, &mut [0; 100]), refused(6, 1));
    assert_eq!(quick(&ticket, 1, 9), refused(6, 1));
    let ticket = bytes(&format!("{CASE_1} 1 1 1 2 0"));
    assert_eq!(quick(&ticket, 1, 2), accepted(1));
    assert_eq!(quick(&ticket, 0, 1), refused(4, 0));
    assert_eq!(quick(&ticket, 1, 3), refused(4, 0));
}
