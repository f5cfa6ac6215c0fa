//! The memory that a search works in.

use crate::{Refusal, NODE_WORDS, POOL_MOST};

/// Nodes for a search: five words each. A pool may serve any number of searches, one after the other; what it holds
/// makes no difference to an answer.
#[derive(Clone, Debug)]
pub struct Pool(Vec<u32>);

impl Pool {
    /// A pool of so many nodes, 20 bytes each; refused unless there are 1 to 16,777,216.
    pub fn new(nodes: usize) -> Result<Pool, Refusal> {
        if nodes < 1 {
            return Err(Refusal::PoolEmpty);
        }
        if nodes > POOL_MOST {
            return Err(Refusal::PoolTooLarge);
        }
        Ok(Pool(vec![0; nodes * NODE_WORDS]))
    }

    /// A pool of these words. One to four words past the last whole node are never changed.
    pub fn from_words(words: Vec<u32>) -> Pool {
        Pool(words)
    }

    pub fn into_words(self) -> Vec<u32> {
        self.0
    }

    /// The capacity in nodes.
    pub fn nodes(&self) -> usize {
        self.0.len() / NODE_WORDS
    }

    pub fn words(&self) -> &[u32] {
        &self.0
    }

    pub(crate) fn words_mut(&mut self) -> &mut [u32] {
        &mut self.0
    }
}

/// The program judge's pool, 3,276 nodes.
impl Default for Pool {
    fn default() -> Pool {
        Pool(vec![0; 3_276 * NODE_WORDS])
    }
}
