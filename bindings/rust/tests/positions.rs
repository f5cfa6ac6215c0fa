//! The manual's positions to try (MANUAL, Positions to try).

mod common;

use common::{budget, bytes, d, pool, record, w, E, FREE_CHOICE, G, RULES};
use ultimattt::{agreed_opening, full_verdict, legal_moves, referee, replay, search};
use ultimattt::{Cause, FullVerdict, Pool, Refusal, Rule, Settings, Verdict};

/// A search's result, as the program judge prints it.
fn line(record: &[u8], nodes: usize, expansions: u64, rule: Rule) -> String {
    search(record, &mut pool(nodes), rule, &budget(expansions)).expect("an accepted search").to_string()
}

#[test]
fn moves_of_the_empty_game() {
    let moves = legal_moves(&E).unwrap();
    assert_eq!((moves.len(), moves[0], moves[80]), (81, 0x00, 0x88));
    assert!(moves.windows(2).all(|pair| pair[0] < pair[1]));
}

#[test]
fn replays_of_the_empty_game() {
    let mut after = [0; 21];
    (after[0], after[10]) = (0xA0, 0x02);
    assert_eq!(replay(&E, &[0x44]), Ok(after));
    assert_eq!(replay(&E, &[]), Ok(E));
    assert_eq!(replay(&E, &[0x44, 0x44]), Err(Refusal::NotEmpty(1)));
    assert_eq!(replay(&E, &[0x44, 0x00]), Err(Refusal::WrongBoard(1)));
    assert_eq!(replay(&E, &[0x09]), Err(Refusal::OutOfBounds(0)));
}

#[test]
fn sheets_of_the_empty_game() {
    let after_two = record("000000000000000000040200000000000000000000");
    assert_eq!(agreed_opening(&[0x44, 0x40, 0x04], &[0x44, 0x40, 0x05]), (&[0x44, 0x40][..], after_two));
    let after_one = record("A00000000000000000000200000000000000000000");
    assert_eq!(agreed_opening(&[0x44, 0x44], &[0x44, 0x44]), (&[0x44][..], after_one));
    assert_eq!(agreed_opening(&[0x09], &[0x09]), (&[][..], E));
    assert_eq!(agreed_opening(&[], &[0x44]), (&[][..], E));
}

#[test]
fn sheets_that_go_on_after_the_end() {
    let game = bytes(G);
    let longer = [&game[..], &[0x40]].concat();
    let won = record("A0002A001001004208202440000043221040040020");
    assert_eq!(agreed_opening(&longer, &longer), (&game[..], won));
}

#[test]
fn one_mark_more() {
    let (mut x_to_move, mut o_to_move) = (E, E);
    (x_to_move[0], o_to_move[0]) = (0x7A, 0xFA);
    assert_eq!(replay(&x_to_move, &[]), Err(Refusal::CellCounts));
    assert_eq!(replay(&o_to_move, &[]), Err(Refusal::ImpossibleChoice));
    o_to_move[0] = 0x82;
    assert_eq!(replay(&o_to_move, &[]), Ok(o_to_move));
}

#[test]
fn searches_of_the_empty_game() {
    for rule in RULES {
        assert_eq!(line(&E, 3_276, 0, rule), "Unknown 1 1 1 0 0 0 0 1");
        assert_eq!(line(&E, 82, 1, rule), "Unknown 1 81 82 0 0 0 1 1");
        assert_eq!(line(&E, 81, 1, rule), "Unknown 1 1 1 0 0 0 0 2");
        assert_eq!(line(&E, 90, 2, rule), "Unknown 1 81 90 0 0 0 2 1");
        assert_eq!(line(&E, 89, 2, rule), "Unknown 1 81 82 0 0 0 1 2");
    }
}

#[test]
fn w_is_won() {
    let mut bytes = [0; 21];
    bytes[..11].copy_from_slice(&[0x12, 0xA0, 0x00, 0xA8, 0x00, 0x28, 0x05, 0x15, 0x00, 0x05, 0x40]);
    assert_eq!(w(), bytes);
    for rule in RULES {
        for nodes in [6, 5, 2] {
            assert_eq!(line(&w(), nodes, 1, rule), "True 0 2147483648 2 1 1 0 1 0");
        }
        let short = search(&w(), &mut pool(1), rule, &budget(1)).unwrap();
        assert_eq!((short.verdict, short.cause), (Verdict::Unknown, Cause::PoolShort));
    }
    let answer = full_verdict(&w(), &mut pool(2), &budget(1)).unwrap();
    assert_eq!(answer.verdict, FullVerdict::Win);
}

#[test]
fn judge_line_of_w() {
    let result = search(&w(), &mut Pool::default(), Rule::DrawLostByMover, &Settings::default()).unwrap();
    assert_eq!(Pool::default().nodes(), 3_276);
    assert_eq!(result.to_string(), "True 0 2147483648 2 1 1 0 1 0");
}

#[test]
fn d_is_drawn() {
    let drawn = d(FREE_CHOICE);
    assert_eq!(drawn, record("7AB400AC0054001500054000A8002A000A80054000"));
    let values = [Verdict::False, Verdict::False, Verdict::True];
    for (rule, value) in RULES.into_iter().zip(values) {
        let result = search(&drawn, &mut Pool::default(), rule, &Settings::default()).unwrap();
        assert_eq!((result.verdict, result.expanded, result.cause), (value, 0, Cause::Solved));
        assert_eq!(referee(&drawn, rule), Ok(value == Verdict::True));
    }
    let answer = full_verdict(&drawn, &mut Pool::default(), &Settings::default()).unwrap();
    assert_eq!(answer.verdict, FullVerdict::Draw);
    assert_eq!((answer.first.verdict, answer.second.verdict), (Verdict::False, Verdict::True));
    assert_eq!(legal_moves(&drawn), Ok(vec![]));
    assert_eq!(replay(&d(0), &[]), Err(Refusal::TargetDone));
}

#[test]
fn every_full_verdict() {
    let cases = [
        (E, 1, FullVerdict::Unknown),
        (w(), 1, FullVerdict::Win),
        (record("FAA000A8002A001500054001400000000000000000"), 1, FullVerdict::Loss),
        (d(FREE_CHOICE), 1, FullVerdict::Draw),
        (record("7822D2CD2B352CCB12D4CB52C9534A84CCB334AD52"), 4, FullVerdict::AtLeastDraw),
        (record("7815004ACB44C549123044C0CA32B2CA2B13342294"), 9, FullVerdict::AtMostDraw),
    ];
    for (record, expansions, verdict) in cases {
        let answer = full_verdict(&record, &mut Pool::default(), &budget(expansions)).unwrap();
        assert_eq!(answer.verdict, verdict);
        let alone = search(&record, &mut Pool::default(), Rule::DrawFalse, &budget(expansions)).unwrap();
        assert_eq!(answer.first, alone);
        let alone = search(&record, &mut Pool::default(), Rule::DrawTrue, &budget(expansions)).unwrap();
        assert_eq!(answer.second, alone);
    }
}

/// An ending whose two results tell the counts apart; the answers are the original program's.
#[test]
fn counts_apart() {
    let ending = record("7822D2CD2B352CCB12D4CB52C9534A84CCB334AD52");
    assert_eq!(line(&ending, 3_276, 100_000, Rule::DrawLostByMover), "True 0 2147483650 12 11 3 3 7 0");
    assert_eq!(line(&ending, 3_276, 4, Rule::DrawLostByMover), "Unknown 1 3 8 3 0 3 4 1");
}

#[test]
fn over_the_limit() {
    let tight = Settings { limit: 82, interval: 2, ..Settings::default() };
    let result = search(&E, &mut Pool::default(), Rule::DrawFalse, &tight).unwrap();
    assert_eq!((result.cause, result.expanded), (Cause::OverLimit, 2));
}
