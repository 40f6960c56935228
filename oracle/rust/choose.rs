//! Stands in for the module `choose`, which is not at hand: the trait that `Solver` names. Nothing here solves.

use crate::Uint;

pub trait Choose<P> {
    fn choose(&mut self, problem: &mut P) -> Uint;
}
