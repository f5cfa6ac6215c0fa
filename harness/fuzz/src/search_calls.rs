//! What a search and a full verdict are lent, so that a wrong library can do them otherwise (`wrong_stay`,
//! `wrong_budgets`, `wrong_choices`).

use calls::Stay;
use uttt::ffi;

/// The setting that a call is given.
pub fn given(staying: bool, margin: f64) -> Stay {
    if staying {
        Stay::margin(margin)
    } else {
        Stay::Off
    }
}

/// A full verdict has no rule.
#[derive(Clone, Copy)]
pub struct Asked {
    pub record: *const u8,
    pub n: usize,
    pub words: *mut u32,
    pub k: usize,
    pub rule: u64,
    pub limits: [u64; 3],
    pub staying: bool,
    pub margin: f64,
}

impl Asked {
    pub unsafe fn search(self) -> ffi::SearchAnswer {
        let Asked { record, n, words, k, rule, limits: [limit, budget, interval], staying, margin } = self;
        ffi::uttt_search(record, n, words, k, rule, limit, budget, interval, staying, margin)
    }

    pub unsafe fn full(self) -> ffi::FullAnswer {
        let Asked { record, n, words, k, limits: [limit, budget, interval], staying, margin, .. } = self;
        ffi::uttt_full_verdict(record, n, words, k, limit, budget, interval, staying, margin)
    }
}

/// A refusal without a result.
pub fn refused(code: u32) -> ffi::SearchAnswer {
    ffi::SearchAnswer { code, index: 0, result: Default::default() }
}

/// A search that is done otherwise.
macro_rules! search {
    ($name:ident, |$lent:ident| $done:expr) => {
        #[allow(clippy::too_many_arguments)]
        unsafe extern "C" fn $name(
            record: *const u8,
            n: usize,
            words: *mut u32,
            k: usize,
            rule: u64,
            limit: u64,
            budget: u64,
            interval: u64,
            staying: bool,
            margin: f64,
        ) -> ffi::SearchAnswer {
            let limits = [limit, budget, interval];
            let $lent = $crate::search_calls::Asked { record, n, words, k, rule, limits, staying, margin };
            $done
        }
    };
}

/// A full verdict that is done otherwise.
macro_rules! full {
    ($name:ident, |$lent:ident| $done:expr) => {
        #[allow(clippy::too_many_arguments)]
        unsafe extern "C" fn $name(
            record: *const u8,
            n: usize,
            words: *mut u32,
            k: usize,
            limit: u64,
            budget: u64,
            interval: u64,
            staying: bool,
            margin: f64,
        ) -> ffi::FullAnswer {
            let (rule, limits) = (0, [limit, budget, interval]);
            let $lent = $crate::search_calls::Asked { record, n, words, k, rule, limits, staying, margin };
            $done
        }
    };
}

/// A search with something done after it.
macro_rules! search_then {
    ($name:ident, |$lent:ident, $a:ident| $after:expr) => {
        search!($name, |$lent| {
            #[allow(unused_mut)]
            let mut $a = $lent.search();
            $after;
            $a
        });
    };
}

/// A full verdict with something done after it.
macro_rules! full_then {
    ($name:ident, |$lent:ident, $a:ident| $after:expr) => {
        full!($name, |$lent| {
            #[allow(unused_mut)]
            let mut $a = $lent.full();
            $after;
            $a
        });
    };
}

pub(crate) use {full, full_then, search, search_then};
