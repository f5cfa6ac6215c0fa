//! The agreed opening of two sheets (MANUAL, Calls): where it ends, and whose memory it is.

mod common;

use common::{bytes, E, G};
use ultimattt::{agreed_opening, legal_moves, replay, Refusal};

/// A drawn game that fills all 81 cells.
const FULL: &str = "1442211117700220033336633550077771166443300444477667788441188775588110066555533882222662233228\
                    86611331122557733774400888800552244668855666600001155448833445517227";

/// The longest beginning of both sheets that replay takes, found by trying each.
fn by_replay<'a>(first: &'a [u8], second: &[u8]) -> &'a [u8] {
    let common = |n: &usize| second.starts_with(&first[..*n]) && replay(&E, &first[..*n]).is_ok();
    &first[..(0..=first.len()).rev().find(common).expect("no moves are a beginning")]
}

/// The length of the agreed opening; what holds of every opening is asserted, with the sheets either way round.
fn agreed(first: &[u8], second: &[u8]) -> usize {
    let (opening, after) = agreed_opening(first, second);
    assert_eq!(opening, by_replay(first, second));
    assert_eq!(opening.as_ptr(), first.as_ptr(), "it is a part of the first sheet itself");
    assert_eq!(replay(&E, opening), Ok(after));
    let (other, as_well) = agreed_opening(second, first);
    assert_eq!((other, as_well), (opening, after));
    assert_eq!(other.as_ptr(), second.as_ptr());
    opening.len()
}

#[test]
fn equal_sheets() {
    let game = bytes(FULL);
    assert_eq!(agreed(&game, &game.clone()), 81);
    assert_eq!(agreed(&game, &game), 81, "both in the same memory");
    assert_eq!(agreed(&bytes(G), &bytes(G)), 21);
}

#[test]
fn one_sheet_begins_the_other() {
    let game = bytes(FULL);
    for length in 0..=game.len() {
        assert_eq!(agreed(&game, &game[..length]), length);
    }
}

#[test]
fn a_difference() {
    let game = bytes(FULL);
    for at in 0..game.len() {
        let mut other = game.clone();
        other[at] ^= 1;
        assert_eq!(agreed(&game, &other), at);
    }
}

#[test]
fn no_moves() {
    assert_eq!(agreed(&[], &[]), 0);
    assert_eq!(agreed(&[], &[0x44]), 0);
    assert_eq!(agreed(&[], &[0xFF]), 0);
    assert_eq!(agreed_opening(&[], &[]).1, E);
    assert_eq!(agreed_opening(&[0x44], &[0x40]).1, E);
}

/// Equal sheets with each of the five errors: the opening ends ahead of the bad move.
#[test]
fn a_bad_move_in_both() {
    let cases = [
        ("0944", Refusal::OutOfBounds(0)),
        ("FF", Refusal::OutOfBounds(0)),
        ("449044", Refusal::OutOfBounds(1)),
        ("04400880000144", Refusal::WonBoard(5)),
        ("444044", Refusal::WrongBoard(2)),
        ("40044000", Refusal::NotEmpty(2)),
    ];
    for (digits, refusal) in cases {
        let sheet = bytes(digits);
        assert_eq!(replay(&E, &sheet), Err(refusal));
        assert_eq!(Some(agreed(&sheet, &sheet)), refusal.index());
    }
}

/// Both sheets go on when the game is over: won, or with every cell taken.
#[test]
fn moves_after_the_end() {
    for game in [bytes(G), bytes(FULL)] {
        let longer = [&game[..], &legal_moves(&E).unwrap()].concat();
        assert_eq!(replay(&E, &longer), Err(Refusal::GameOver(game.len())));
        assert_eq!(agreed(&longer, &longer), game.len());
        assert_eq!(agreed(&longer, &game), game.len());
        assert_eq!(legal_moves(&agreed_opening(&longer, &longer).1), Ok(vec![]));
    }
}

/// The opening is held by the first sheet alone: the second may go.
#[test]
fn the_second_sheet_may_go() {
    let first = bytes("4440");
    let opening = {
        let second = bytes("4441");
        agreed_opening(&first, &second).0
    };
    assert_eq!(opening, [0x44]);
}
