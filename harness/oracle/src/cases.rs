//! The calls of cases.txt with the answers written there.

use calls::Call;

const TEXT: &str = include_str!("../cases.txt");

/// Each call and its answer, as text.
pub fn cases() -> impl Iterator<Item = (&'static str, &'static str)> {
    let lines = TEXT.lines().map(|line| line.split('#').next().unwrap_or("").trim());
    lines.filter(|line| !line.is_empty()).map(|line| line.split_once(" => ").expect("a case is CALL => ANSWER"))
}

/// The calls alone.
pub fn calls() -> impl Iterator<Item = Call> {
    cases().map(|(call, _)| calls::line::parse(call).expect("a case starts with a call"))
}

/// The calls as lists: a book's lines from one that sets it to the next, every other call alone.
pub fn lists() -> Vec<Vec<Call>> {
    let mut lists: Vec<Vec<Call>> = Vec::new();
    for call in calls() {
        match (&call, lists.last_mut()) {
            (Call::Book(line), Some(list)) if !line.begins_a_list() => list.push(call),
            _ => lists.push(vec![call]),
        }
    }
    lists
}
