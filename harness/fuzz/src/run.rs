//! A call of an export with every buffer between guard pages.

use crate::books;
use crate::exports::Exports;
use crate::filling::Filling;
use crate::guarded::{Edge, Region};
use crate::inputs::{any_margin, LONGEST, MOST_NODES};
use crate::watch;
use calls::games::MOST_GAMES;
use calls::record::LENGTH;
use calls::{Book, Call, Games, Simulation};
use oracle::generate::Random;
use uttt::ffi;

pub const NODE_BYTES: usize = 20;
pub const WORD_BYTES: usize = 4;

/// What an export gave, and what stands in the output that was lent, if one was.
#[derive(Clone, Debug, PartialEq)]
pub struct Answered {
    pub code: u32,
    pub index: u64,
    /// The other numbers of the answer, in their order.
    pub numbers: Vec<u64>,
    pub output: Vec<u8>,
}

pub struct Lender {
    pub exports: Exports,
    /// A call that takes longer has failed.
    pub seconds: u32,
    /// What is only read: a record, records or the first sheet, and moves or the second sheet.
    pub first: Region,
    second: Region,
    /// A book stands in the output's place.
    pub output: Region,
    number: Region,
    pub shares: Region,
    pub pool: Region,
}

impl Lender {
    pub fn new(exports: Exports, seconds: u32) -> Lender {
        let region = |capacity| Region::new(capacity).expect("the system has addresses");
        let pool = region(NODE_BYTES * MOST_NODES as usize + NODE_BYTES);
        let [first, second, output] = [(); 3].map(|()| region(2 * LONGEST));
        let (number, shares) = (region(WORD_BYTES), region(size_of::<[u64; MOST_GAMES]>()));
        Lender { exports, seconds, first, second, output, number, shares, pool }
    }

    /// Answers the call, or says what it did that it may not.
    pub fn answer(
        &mut self,
        call: &Call,
        book: &Book,
        line: &str,
        edge: Edge,
        random: &mut Random,
    ) -> Result<Answered, String> {
        let (first, second) = read_by(call);
        self.first.lend_to_read(first, edge, Filling::any(random));
        self.second.lend_to_read(second, edge, Filling::any(random));
        let answered = match call {
            Call::Moves { output, .. } => self.moves(*output, line, edge, random),
            Call::Replay { output, .. } => self.replay(*output, line, edge, random),
            Call::Referee { rule, .. } => Ok(self.referee(*rule, line)),
            Call::Search { pool, .. } | Call::Full { pool, .. } => self.search(call, *pool, *pool, line, edge, random),
            Call::Games(games) => self.games(call, games, line, edge, random),
            Call::Simulate(simulation) => self.simulate(call, simulation, line, edge, random),
            Call::Sheets { output, .. } => self.sheets(*output, line, edge, random),
            Call::Book(call) => self.book(call, book, line, edge, random),
        }?;
        kept(&mut self.first, first)?;
        kept(&mut self.second, second)?;
        Ok(answered)
    }

    fn moves(&mut self, length: usize, line: &str, edge: Edge, random: &mut Random) -> Result<Answered, String> {
        self.output.lend(length, edge, Filling::any(random));
        let (output, call) = (self.output.pointer(), self.exports.moves);
        let (from, size) = (self.first.pointer(), self.first.bytes().len());
        // SAFETY: pointers and lengths belong together, and the buffers are apart.
        let a = watch::during(line, self.seconds, || unsafe { call(from, size, output, length) });
        let written = if a.code == 0 { (a.count as usize).min(length) } else { 0 };
        self.output.unchanged(written)?;
        Ok(Answered { code: a.code, index: a.index, numbers: vec![a.count], output: self.output.bytes().to_vec() })
    }

    fn replay(&mut self, length: usize, line: &str, edge: Edge, random: &mut Random) -> Result<Answered, String> {
        self.output.lend(length, edge, Filling::any(random));
        let (output, call) = (self.output.pointer(), self.exports.replay);
        let (from, size) = (self.first.pointer(), self.first.bytes().len());
        let (list, moves) = (self.second.pointer(), self.second.bytes().len());
        // SAFETY: pointers and lengths belong together, and the buffers are apart.
        let a = watch::during(line, self.seconds, || unsafe { call(from, size, list, moves, output, length) });
        Ok(Answered { code: a.code, index: a.index, numbers: vec![], output: self.record_output(a.code)? })
    }

    /// The number is the answer's code. Equal sheets are lent as one where buffers stand at the start of their pages.
    fn sheets(&mut self, length: usize, line: &str, edge: Edge, random: &mut Random) -> Result<Answered, String> {
        self.output.lend(length, edge, Filling::any(random));
        self.number.lend(WORD_BYTES, edge, Filling::any(random));
        let (output, number, call) = (self.output.pointer(), self.number.pointer() as *mut u32, self.exports.sheets);
        let (from, size) = (self.first.pointer(), self.first.bytes().len());
        let as_one = edge == Edge::Start && self.first.bytes() == self.second.bytes();
        let (other, rest) = (if as_one { from } else { self.second.pointer() }, self.second.bytes().len());
        // SAFETY: pointers and lengths belong together; what is written is apart from all else.
        let count =
            watch::during(line, self.seconds, || unsafe { call(from, size, other, rest, output, length, number) });
        self.number.unchanged(WORD_BYTES)?;
        let code = u32::from_ne_bytes(self.number.bytes().try_into().expect("a number is four bytes"));
        Ok(Answered { code, index: 0, numbers: vec![count], output: self.record_output(code)? })
    }

    /// The output, if no more than a record was written to it, and nothing with a refusal.
    fn record_output(&mut self, code: u32) -> Result<Vec<u8>, String> {
        let length = self.output.bytes().len();
        self.output.unchanged(if code == 0 { LENGTH.min(length) } else { 0 })?;
        Ok(self.output.bytes().to_vec())
    }

    fn referee(&mut self, rule: u64, line: &str) -> Answered {
        let (call, from, size) = (self.exports.referee, self.first.pointer(), self.first.bytes().len());
        // SAFETY: pointer and length belong together.
        let a = watch::during(line, self.seconds, || unsafe { call(from, size, rule) });
        Answered { code: a.code, index: a.index, numbers: vec![a.value.into()], output: vec![] }
    }

    /// Search, full verdict, games or simulated players, twice: the second time with what the first one left in the
    /// pool, and where staying is off with another margin, which is not read. Of its nodes so many can be written.
    pub fn search(
        &mut self,
        call: &Call,
        nodes: u64,
        open: u64,
        line: &str,
        edge: Edge,
        random: &mut Random,
    ) -> Result<Answered, String> {
        self.pool.lend(NODE_BYTES * nodes as usize + WORD_BYTES * random.index(5), edge, Filling::any(random));
        let first = self.pool_call(call, any_margin(random), line);
        let written = if first.code == 0 { NODE_BYTES * open as usize } else { 0 };
        self.pool.unchanged(written)?;
        let again = self.pool_call(call, any_margin(random), line);
        self.pool.unchanged(written)?;
        if first != again {
            return Err(format!("with the first one's words in the pool {:?}, not {:?}", again, first));
        }
        Ok(first)
    }

    fn pool_call(&mut self, call: &Call, unread: f64, line: &str) -> Answered {
        let (from, size) = (self.first.pointer(), self.first.bytes().len());
        let (words, length) = (self.pool.pointer() as *mut u32, self.pool.bytes().len() / WORD_BYTES);
        let Exports { search, full, games, simulate, .. } = self.exports;
        let shares = self.shares.pointer() as *const [u64; MOST_GAMES];
        let (on, margin) = call.stay().unwrap_or_default().passed(unread);
        // SAFETY: pointers and lengths belong together, and the buffers are apart.
        watch::during(line, self.seconds, || match *call {
            Call::Search { rule, limit, budget, interval, .. } => {
                searched(unsafe { search(from, size, words, length, rule, limit, budget, interval, on, margin) })
            }
            Call::Full { limit, budget, interval, .. } => {
                judged(unsafe { full(from, size, words, length, limit, budget, interval, on, margin) })
            }
            Call::Games(Games { rule, limit, allowance, interval, .. }) => judged_together(unsafe {
                games(from, size, words, length, shares, rule, limit, allowance, interval, on, margin)
            }),
            Call::Simulate(Simulation { seed, games, limit, interval, budgets: [x, o], .. }) => simulated(unsafe {
                simulate(from, size, words, length, seed, games, limit, x, o, interval, on, margin)
            }),
            _ => unreachable!("no other call has a pool"),
        })
    }
}

pub fn searched(a: ffi::SearchAnswer) -> Answered {
    Answered { code: a.code, index: a.index, numbers: fields(a.result).to_vec(), output: vec![] }
}

pub fn judged(a: ffi::FullAnswer) -> Answered {
    let numbers = [vec![a.verdict.into()], fields(a.first).to_vec(), fields(a.second).to_vec()].concat();
    Answered { code: a.code, index: a.index, numbers, output: vec![] }
}

/// The numbers are the count and those of the results up to the last that is not all zeros.
pub fn judged_together(a: ffi::GamesAnswer) -> Answered {
    let zeros = a.results.iter().rev().take_while(|result| **result == ffi::ResultFields::default()).count();
    let results = a.results.into_iter().take(a.results.len() - zeros).flat_map(fields);
    Answered { code: a.code, index: a.index, numbers: [a.count].into_iter().chain(results).collect(), output: vec![] }
}

pub fn simulated(a: ffi::SimulateAnswer) -> Answered {
    let numbers = vec![a.x_wins, a.o_wins, a.draws, a.expanded];
    Answered { code: a.code, index: a.index, numbers, output: vec![] }
}

pub fn fields(f: ffi::ResultFields) -> [u64; 9] {
    let (verdict, proof, disproof, cause) = (f.verdict.into(), f.proof.into(), f.disproof.into(), f.cause.into());
    [verdict, proof, disproof, f.allocated, f.freed, f.proved, f.disproved, f.expanded, cause]
}

/// What a call reads: a record, records or the first sheet, and moves or the second sheet.
fn read_by(call: &Call) -> (&[u8], &[u8]) {
    match call {
        Call::Moves { record, .. }
        | Call::Search { record, .. }
        | Call::Full { record, .. }
        | Call::Referee { record, .. } => (record, &[]),
        Call::Replay { record, moves, .. } => (record, moves),
        Call::Sheets { first, second, .. } => (first, second),
        Call::Book(call) => (books::record(call), &[]),
        Call::Games(games) => (&games.records, &[]),
        Call::Simulate(call) => (&call.record, &[]),
    }
}

/// What was lent to be read is as it was, and so are the bytes around it.
pub fn kept(region: &mut Region, bytes: &[u8]) -> Result<(), String> {
    region.unchanged(bytes.len())?;
    if region.bytes() != bytes {
        return Err("what was lent to be read was written".to_string());
    }
    Ok(())
}
