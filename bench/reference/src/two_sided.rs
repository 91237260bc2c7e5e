//! The two-sided bottom, of the program `twosided`: being behind the even share costs by another scale than being ahead of it.

use crate::penalty::{Penalty, Question, TOP};

/// 40 for each step where the count is behind its even share, the root table where it is not.
#[derive(Clone, Copy)]
pub struct TwoSided {
    roots: [u16; 256],
}

impl TwoSided {
    /// The bottom with its root table: number s is the largest whole v with v·v at most 1000·s.
    pub fn new() -> TwoSided {
        let mut roots = [0; 256];
        for (root, step) in roots.iter_mut().zip(0_u32..) {
            *root = (1_000 * step).isqrt() as u16;
        }
        TwoSided { roots }
    }
}

impl Penalty for TwoSided {
    fn cost(&self, question: Question) -> u64 {
        if !question.in_domain() {
            return TOP;
        }
        let ahead = question.ahead();
        let step = (8 * ahead.unsigned_abs() / u64::from(question.slots)).min(255);
        if ahead < 0 {
            40 * step
        } else {
            u64::from(self.roots[step as usize])
        }
    }
}
