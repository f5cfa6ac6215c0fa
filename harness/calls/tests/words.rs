//! The words of the refusals: each number has some of its own, and nothing else has.

use calls::words;
use std::collections::BTreeSet;

#[test]
fn every_refusal_has_words() {
    let all: BTreeSet<_> = (1..=23).map(|number| words::of(number).expect("a refusal has words")).collect();
    assert_eq!(all.len(), 23);
    assert!(all.iter().all(|words| words.len() > 10 && !words.contains("*/")));
    assert_eq!([0, 24, 255].map(words::of), [None; 3]);
}

#[test]
fn a_choice_that_cant_be_is_named() {
    assert_eq!(words::of(22), Some("free choice, though a cell is taken and no board is done"));
    assert_eq!(words::of(6), Some("the target is a won or drawn board"));
}
