//! Games judged together between guard pages, and what any answer of theirs must meet: the results are those that the
//! library's own search gives for each game. That these are the right ones is the comparison's to see.

use crate::checks::{must, search};
use crate::filling::Filling;
use crate::guarded::Edge;
use crate::passes::AS_DUE;
use crate::run::{fields, kept, Answered, Lender, NODE_BYTES, WORD_BYTES};
use crate::watch;
use calls::record::LENGTH;
use calls::table::games_refusal;
use calls::{Call, Games};
use oracle::generate::Random;

/// How many numbers a result has, and two of their places.
const FIELDS: usize = 9;
const EXPANDED: usize = 7;
const CAUSE: usize = 8;

impl Lender {
    /// The call, then every game alone.
    pub fn games(
        &mut self,
        call: &Call,
        games: &Games,
        line: &str,
        edge: Edge,
        random: &mut Random,
    ) -> Result<Answered, String> {
        let shares = games.shares.map(u64::to_ne_bytes).concat();
        self.shares.lend_to_read(&shares, edge, Filling::any(random));
        let in_parts = games.part() * games.count() as u64;
        let answered = self.search(call, games.pool, in_parts, line, edge, random)?;
        kept(&mut self.shares, &shares)?;
        if games_refusal(games).is_none() && answered.code == 0 {
            self.pool.lend(NODE_BYTES * games.part() as usize, edge, Filling::any(random));
            same(&self.alone(games, line), &answered.numbers[1..])?;
        }
        Ok(answered)
    }

    /// The numbers of the results by lone searches, over a pool of a part's nodes.
    fn alone(&mut self, games: &Games, line: &str) -> Vec<u64> {
        let (from, export) = (self.first.pointer(), self.exports.search);
        let (words, length) = (self.pool.pointer() as *mut u32, self.pool.bytes().len() / WORD_BYTES);
        let Games { rule, limit, allowance, interval, stay, .. } = *games;
        let (on, margin) = stay.passed(f64::NAN);
        // SAFETY: pointers and lengths belong together, and the buffers are apart.
        let lone = |game: usize, budget| unsafe {
            export(from.add(LENGTH * game), LENGTH, words, length, rule, limit, budget, interval, on, margin).result
        };
        let results = watch::during(line, self.seconds, || AS_DUE.results(games.shares_read(), allowance, lone, lone));
        results.into_iter().flat_map(fields).collect()
    }
}

/// Of each game the numbers are the same, alone and together with the others.
fn same(alone: &[u64], together: &[u64]) -> Result<(), String> {
    let mut results = alone.chunks(FIELDS).enumerate();
    match results.find(|(game, result)| together.chunks(FIELDS).nth(*game) != Some(result)) {
        None => Ok(()),
        Some((game, result)) => {
            let other = together.chunks(FIELDS).nth(game).unwrap_or(&[]);
            Err(format!("game {} has {:?}, and alone with what it was granted {:?}", game, other, result))
        }
    }
}

/// As many results as games and zeros past them, each that of a search with no less than its share; and the allowance
/// holds, and is spent if a budget stopped a game.
pub fn result(games: &Games, a: &Answered) -> Result<(), String> {
    must(a.numbers[0] == games.count() as u64, "the count is that of the games")?;
    let results: Vec<&[u64]> = a.numbers[1..].chunks(FIELDS).collect();
    must(results.len() == games.count(), "there are as many results as games, and zeros past them")?;
    let spent: u64 = results.iter().map(|result| result[EXPANDED]).sum();
    must(spent <= games.allowance, "the allowance holds")?;
    let is_stopped = |result: &&[u64]| result[CAUSE] == 1;
    for (result, share) in results.iter().zip(games.shares) {
        let budget = if is_stopped(result) { share.max(result[EXPANDED]) } else { games.allowance };
        search(result, [games.part(), games.limit, budget, games.interval])?;
    }
    let all_spent = spent == games.allowance;
    must(all_spent || !results.iter().any(is_stopped), "where a budget stops a game, the allowance is spent")
}
