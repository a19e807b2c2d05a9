//! Sessions until stopped, for long runs by hand.

use super::checks::{group, GROUPS};
use super::met::Met;
use crate::calls::host::Library;

/// Sessions of one kind between two lines of progress.
const BATCH: u64 = 25;

/// Numbers start at the seed; a seed and the same one plus the sessions played meet no session twice. Says whether no
/// session differed.
pub fn long(seed: u64, sessions: u64) -> bool {
    let (library, mut met) = (Library::default(), Met::default());
    let (mut played, mut next, mut differences) = (0, seed, 0);
    while played < sessions {
        for (name, kind, _) in GROUPS {
            if let Err(told) = group(kind, next..next + BATCH, &library, &mut met) {
                differences += 1;
                println!("DIFFERS {name}: {told}");
            }
            played += BATCH;
        }
        next += BATCH;
        println!("seed {next}: {played} sessions, {} calls, {differences} differences", met.calls);
    }
    differences == 0
}
