//! What is wrong, in words, by a refusal's number: the comments beside the codes of the library's header.

const HEADER: &str = include_str!("../../../include/ultimattt.h");

/// The words of a refusal's number, if it is one.
pub fn of(number: u32) -> Option<&'static str> {
    let (_, rest) = HEADER.split_once("enum uttt_code {")?;
    let (codes, _) = rest.split_once("};")?;
    codes.lines().find_map(|line| {
        let (code, words) = line.split_once("/*")?;
        let (_, value) = code.split_once(" = ")?;
        let is_it = value.trim().trim_end_matches(',').parse() == Ok(number);
        is_it.then_some(words.trim_end_matches("*/").trim())
    })
}
