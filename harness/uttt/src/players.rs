//! Simulated players of the proved library. An answer comes back only if what was lent is as it was but for the pool's
//! nodes, which are written only where there is something to search, and if there are zeros where no report is due.

use crate::ours::{same, settings_refusal, unread};
use crate::{ffi, pool};
use calls::{Answer, Report, Simulation};

pub fn answer(call: &Simulation, pattern: u8) -> Result<Answer, String> {
    let Simulation { record, seed, games, pool, limit, interval, budgets: [x, o], stay } = call;
    let record_before = record.clone();
    let (from, size, (staying, margin)) = (record.as_ptr(), record.len(), stay.passed(unread(pattern)));
    // SAFETY: pointers and lengths belong together, and the buffers are apart.
    let export = |words, length| unsafe {
        ffi::uttt_simulate(from, size, words, length, *seed, *games, *limit, *x, *o, *interval, staying, margin)
    };
    let searched = |code| code == 0 && !call.is_finished();
    let answered = pool::lend(*pool, pattern, export, |answered| if searched(answered.code) { *pool } else { 0 })?;
    same("record", &record_before, record)?;
    read(&answered)
}

fn read(answered: &ffi::SimulateAnswer) -> Result<Answer, String> {
    let report = report(answered);
    match (answered.code, answered.index) {
        (0, 0) => Ok(Answer::Simulated(report)),
        (0, index) => Err(format!("answered with index {}", index)),
        (number, index) => settings_refusal(number, index, report == Report::default()),
    }
}

/// The four numbers of an answer.
pub fn report(answered: &ffi::SimulateAnswer) -> Report {
    let ffi::SimulateAnswer { x_wins, o_wins, draws, expanded, .. } = *answered;
    Report { x_wins, o_wins, draws, expanded }
}
