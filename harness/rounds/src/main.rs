//! Times eight games judged together by one call of the proved library and by eight lone searches of it with what
//! each game is granted, in one process, and counts their instructions where callgrind is installed. Beside them: both
//! passes by lone searches, which search a game again from its start where the call goes on. Prints tables for
//! docs/SPEED.md; fails if a field of a result differs.
//!
//! ```text
//! rounds [ROUNDS]             all tables
//! rounds once WHAT GAMES      one run, for callgrind or another profiler
//! ```

mod games;
mod instructions;
mod sides;
mod timing;

use calls::Games;
use games::{Kind, KINDS, POOL_WORDS};
use measure::callgrind;
use measure::program::Program;
use sides::{expanded, Passes, Results, SOLVED};
use std::process::ExitCode;

const ROUNDS: usize = 41;

/// Eight games and what is due.
struct Case {
    kind: &'static Kind,
    games: Games,
    due: Passes,
}

fn main() -> ExitCode {
    let choices = instructions::choices();
    Program { name: "rounds", rounds: ROUNDS, choices, tables, once: instructions::once }.run()
}

fn tables(rounds: usize) -> Result<(), String> {
    let mut pool = vec![0u32; POOL_WORDS];
    pool.fill(0xA5A5_A5A5);
    let cases = KINDS.iter().map(|kind| case(kind, &mut pool)).collect::<Result<Vec<Case>, String>>()?;
    println!("All results are those of lone searches with the grants, in every field. {} rounds.\n", rounds);
    work_table(&cases);
    println!();
    time_table(&cases, &mut pool, rounds)?;
    println!();
    drop(pool);
    instruction_table(&cases)
}

/// The games, if the call gives what both passes do by lone searches.
fn case(kind: &'static Kind, pool: &mut [u32]) -> Result<Case, String> {
    let games = kind.games();
    let due = sides::again(&games, pool);
    let found = sides::together(&games, pool);
    if found != due.results {
        return Err(format!("{}:\n{}\nlone searches:\n{}", kind.name, shown(&found), shown(&due.results)));
    }
    Ok(Case { kind, games, due })
}

fn shown(results: &Results) -> String {
    let fields = results.map(|result| uttt::ours::fields(result).map_or_else(|wrong| wrong, |f| f.to_string()));
    fields.join("\n")
}

fn work_table(cases: &[Case]) {
    print!("| eight games | share | allowance | solved: first pass, second ");
    println!("| expansions: first pass, second, all | all, if searched again |");
    println!("|---|---|---|---|---|---|");
    for Case { kind, due, .. } in cases {
        let both = [&due.first, &due.results];
        let [solved, in_all] = both.map(|results| results.iter().filter(|r| r.cause == SOLVED).count());
        let [first, all] = both.map(expanded);
        print!("| {}: {} | {} | {} ", kind.name, kind.what, kind.share, kind.allowance);
        print!("| {}, {} ", solved, in_all - solved);
        println!("| {}, {}, {} | {} |", first, all - first, all, due.done);
    }
}

fn time_table(cases: &[Case], touched: &mut [u32], rounds: usize) -> Result<(), String> {
    print!("| eight games | together ms: fresh, touched | alone ms: fresh, touched ");
    println!("| fresh | touched | searched again ms: touched |");
    println!("|---|---|---|---|---|---|");
    for Case { kind, games, due } in cases {
        let times = timing::time(games, due, touched, rounds).map_err(|wrong| format!("{}: {}", kind.name, wrong))?;
        let (fresh, touched) = (times.fresh, times.touched);
        print!("| {} | {:.1}, {:.1} ", kind.name, fresh.together, touched.together);
        print!("| {:.1}, {:.1} | {:.2} ", fresh.alone, touched.alone, fresh.ratio);
        println!("| {:.2} | {:.1} |", touched.ratio, times.again);
    }
    Ok(())
}

/// All of them are divided by the expansions that are counted, also where more are done.
fn instruction_table(cases: &[Case]) -> Result<(), String> {
    let row = |case: &Case| {
        let all = instructions::of_games(case.kind, &case.due.grants)?;
        let counted = expanded(&case.due.results);
        let [together, alone, again] = all.map(|number| number / counted as f64);
        let start = format!("| {}, {} expansions | {:.1} | {:.1}", case.kind.name, counted, together, alone);
        Ok(format!("{} | {:.0} | {:.1} |", start, all[0] - all[1], again))
    };
    let head = "| instructions an expansion | together | alone | together less alone, of all | searched again |\n\
                |---|---|---|---|---|";
    callgrind::table(head, cases.iter().map(row))
}
