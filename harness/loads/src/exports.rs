//! The exports of libload_bench.a: the cells of a record alone and the whole load of one, each both ways.

use std::fmt;
use std::hint::black_box;
use std::mem::size_of;

/// Words of a position.
pub const WORDS: usize = 23;

/// X's nine masks of cells, O's nine, and five words that are not promised; they are 0.
#[repr(C)]
#[derive(Clone, Copy, Debug)]
pub struct BenchCells {
    pub words: [u16; WORDS],
    /// Not 0 exactly if some cell has code 3.
    pub rest: u16,
}

/// 0 and the position's words, or the number of the check that refuses the record.
#[repr(C)]
#[derive(Clone, Copy, Debug)]
pub struct BenchLoaded {
    pub code: u32,
    pub words: [u16; WORDS],
}

const _: () = assert!(size_of::<BenchCells>() == 48 && size_of::<BenchLoaded>() == 52);

extern "C" {
    fn bench_cells_bit_by_bit(bytes: *const u8, length: usize) -> BenchCells;
    fn bench_cells_from_words(bytes: *const u8, length: usize) -> BenchCells;
    fn bench_load_bit_by_bit(bytes: *const u8, length: usize) -> BenchLoaded;
    fn bench_load(bytes: *const u8, length: usize) -> BenchLoaded;
}

/// How a record's cells are read.
#[derive(Clone, Copy)]
pub enum Way {
    Bits,
    Words,
}

/// What is asked of a record: its cells alone, or all of loading.
#[derive(Clone, Copy)]
pub enum Part {
    Cells,
    Load,
}

pub const WAYS: [Way; 2] = [Way::Bits, Way::Words];

impl fmt::Display for Way {
    fn fmt(&self, f: &mut fmt::Formatter) -> fmt::Result {
        f.write_str(match self {
            Way::Bits => "bit by bit",
            Way::Words => "from the words",
        })
    }
}

type Export<T> = unsafe extern "C" fn(*const u8, usize) -> T;

fn cells_export(way: Way) -> Export<BenchCells> {
    match way {
        Way::Bits => bench_cells_bit_by_bit,
        Way::Words => bench_cells_from_words,
    }
}

fn load_export(way: Way) -> Export<BenchLoaded> {
    match way {
        Way::Bits => bench_load_bit_by_bit,
        Way::Words => bench_load,
    }
}

/// The cells of a record; all zeros if it is shorter than a record.
pub fn cells(way: Way, record: &[u8]) -> BenchCells {
    // SAFETY: pointer and length belong together, and nothing is written.
    unsafe { cells_export(way)(record.as_ptr(), record.len()) }
}

/// The record loaded, with checks 1 to 6 and 22.
pub fn load(way: Way, record: &[u8]) -> BenchLoaded {
    // SAFETY: pointer and length belong together, and nothing is written.
    unsafe { load_export(way)(record.as_ptr(), record.len()) }
}

/// Asks every record, so many times one after the other.
pub fn run(part: Part, way: Way, records: &[Vec<u8>], passes: usize) {
    match part {
        Part::Cells => each(cells_export(way), records, passes),
        Part::Load => each(load_export(way), records, passes),
    }
}

fn each<T>(export: Export<T>, records: &[Vec<u8>], passes: usize) {
    for _ in 0..passes {
        for record in records {
            // SAFETY: pointer and length belong together, and nothing is written.
            black_box(&unsafe { export(record.as_ptr(), record.len()) });
        }
    }
}

/// All that `run` does but the calls.
pub fn run_without_calls(records: &[Vec<u8>], passes: usize) {
    for _ in 0..passes {
        for record in records {
            black_box((record.as_ptr(), record.len()));
        }
    }
}
