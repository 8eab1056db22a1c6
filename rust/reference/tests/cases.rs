//! The worked cases of document 01.

mod words;

use reference::judge;
use words::{CASE_1, accepted, bytes, judged, listing, new_nest, refused};

#[test]
fn case_1() {
    let exchange = format!("{CASE_1} 1 1 1 2 0");
    assert_eq!(listing(&exchange), "2 6 1\nO 1 1 <>\n");
    assert_eq!(judge(&bytes(&exchange)), refused(10, 1));
}

#[test]
fn case_2() {
    let nest = "2 1 1 0 1 1 2 1 1 1 0 1 1 3 0 1 2 3 4 1 1 0 1 0 1 0 0 0 1 1 1 0 1 0 -1 0 1";
    assert_eq!(listing(&format!("{nest} 0")), "2 9 1\nF 1 1 =<\n");
    assert_eq!(judged(nest, "1 1 1 2 0"), accepted(9));
    assert_eq!(judged(nest, "1 2 2 0 0"), refused(10, 1));
    assert_eq!(judged(nest, "1 2 1 0 0"), accepted(9));
}

#[test]
fn case_3() {
    let nest = "2 1 1 1 1 1 2 1 1 0 0 1 1 2 0 1 2 3 4 1 1 0 1 0 1 0 0 0 1 1 1 -1 1 0 1 0 1";
    assert_eq!(listing(&format!("{nest} 0")), "2 6 1\nF 1 1 <>\n");
    assert_eq!(judged(nest, "2 2 2 0 0 1 1 2 0"), accepted(6));
    assert_eq!(judged(nest, "2 3 1 2 1 1 1 2 0"), refused(10, 2));
}

#[test]
fn case_4() {
    assert_eq!(listing("1 1 1 0 1 1 6 1 1 7 1 0 0 1 0 1 1 1 6 -1 0"), "1 7 2\nF 1 1 <\nA 1 1 <\n");
}

#[test]
fn case_5() {
    let exchanged = new_nest("2 1 1 0 1 1 2 1 1 0 1 1 1 2 0 1 2 3 3 1 0 0 1 0 1 0 0 0 1 0 1 1 1 2 0");
    assert_eq!(exchanged, "2 1 1 0 1 1 2 1 1 0 0 2 1 2 0 1 0 1 1 2 3 3 1 0 0 1 0 0 1 0 1 0 0 0");
}

#[test]
fn case_6() {
    let ticket = "2 1 1 0 1 1 3 1 1 0 2 1 1 0 2 1 1 4 1 0 0 1 0 1 0 0 1 1 1 2 0";
    let exchanged = "2 1 1 0 1 1 6 2 1 0 0 2 0 1 2 1 3 0 2 0 1 1 1 4 1 0 0 1 0 0 1 0 0";
    assert_eq!(new_nest(ticket), exchanged);
    assert_eq!(judge(&bytes(ticket)), accepted(4));
}

#[test]
fn case_7() {
    let ticket = "1 1 1 0 1 1 6 1 1 7 1 0 0 1 0 1 0 1 4 1 4 0";
    let sectioned = "2 1 4 -3 1 4 6 2 1 0 0 1 0 -4 2 1 3 0 1 6 -4 1 1 7 1 0 0 1 0 4 1 0 0";
    assert_eq!(new_nest(ticket), sectioned);
    assert_eq!(judge(&bytes(ticket)), accepted(7));
}

#[test]
fn case_8() {
    assert_eq!(judge(&bytes("1 1 1 0 1 1 -1 1 1 1 1 1 0 1 0 0 0 0")), accepted(0));
}

#[test]
fn case_9() {
    let constant = "1 1 1 1 1 0 1 0 0 0 0";
    assert_eq!(judge(&bytes(&format!("1 1 1 0 1 1 4095 {constant}"))), accepted(4096));
    assert_eq!(judge(&bytes(&format!("1 1 1 0 1 1 4096 {constant}"))), refused(8, 1));
    let twice = |i: i64| judge(&bytes(&format!("2 1 1 {i} 1 1 {i} 1 1 0 2 1 1 0 2 1 1 1 1 1 0 1 0 0 0 0 0")));
    assert_eq!(twice(16_384), refused(7, 2));
    assert_eq!(twice(16_383), accepted(1));
}
