//! The turns that are not starred and the runs that are refused, each in both directions, and the runs that finish, inverse ones among
//! them. All that they leave comes from the reference.

use super::Told;
use crate::cases::{finished_runs, refused_runs, unstarred_turns, Given, RunCase};
use crate::fuzz::{left_by, Reference};

fn run(case: &RunCase, inverse: bool) -> Told {
    let given = Given { inverse, ..case.given.clone() };
    let left = left_by(&Reference, &given);
    Told { name: case.name.clone(), given, left }
}

pub fn runs() -> Vec<Told> {
    let both_ways = [unstarred_turns(), refused_runs()].into_iter().flatten().flat_map(|case| [run(&case, false), run(&case, true)]);
    both_ways.chain(finished_runs().iter().map(|case| run(case, case.given.inverse))).collect()
}
