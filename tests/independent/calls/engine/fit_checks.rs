//! Refusal 36 and the ends of lent memory, tried with file S.

use super::calls::Engine;
use super::job::{close, run, update, Job};
use super::memory::{Lent, State, FINISHED};
use super::mutant::Mutant;
use super::session::Session;
use super::{fit, node::Node};
use crate::support::checked::{same, Checked};
use crate::support::encode::encode;
use crate::support::program::{rule, yes, Program};
use crate::support::worked::{s, wet};

/// One thing that a host may do to what it hands back.
type Change = fn(&mut Lent, &mut State);

const FITS: [(&str, Change); 9] = [
    ("nothing", |_, _| {}),
    ("layer 1", |_, state| state.layer = 1),
    ("layer 2", |_, state| state.layer = 2),
    ("an atom at the last node", |lent, _| lent.places[2] = 7),
    ("an atom at always", |lent, _| lent.places[5] = 1),
    ("a shorter store", |lent, _| lent.words.truncate(6)),
    ("a longer store", |lent, _| lent.words.resize(4_096, 0)),
    ("words past the largest store", |lent, _| lent.words = [&lent.words[..], &[0; 4_089], &[9; 5]].concat()),
    ("a place past the last", |lent, _| lent.places.push(9)),
];

const FITS_NOT: [(&str, Change); 27] = [
    ("layer 0", |_, state| state.layer = 0),
    ("layer 3", |_, state| state.layer = 3),
    ("layer 257", |_, state| state.layer = 257),
    ("layer before finished", |_, state| state.layer = FINISHED - 1),
    ("layer past finished", |_, state| state.layer = FINISHED + 65_536),
    ("zeros", |_, state| *state = State::ZEROS),
    ("no nodes", |_, state| state.nodes = 0),
    ("fewer nodes than facts", |_, state| state.nodes = 1),
    ("a node too few", |_, state| state.nodes = 5),
    ("a node too many", |_, state| state.nodes = 7),
    ("more nodes than room", |_, state| state.nodes = 8),
    ("a count that wraps", |_, state| state.nodes = 65_536 + 6),
    ("a store too short", |lent, _| lent.words.truncate(5)),
    ("no store", |lent, _| lent.words.clear()),
    ("places too few", |lent, _| lent.places.truncate(543)),
    ("a fact's place", |lent, _| lent.places[0] = 3),
    ("a fact's node", |lent, _| lent.words[1] = Node { fact: 1, low: 1, high: 0 }.word()),
    ("an atom past the nodes", |lent, _| lent.places[3] = 8),
    ("a place past the atoms", |lent, _| lent.places[6] = 1),
    ("the last place", |lent, _| lent.places[543] = 1),
    ("an unused entry", |lent, _| lent.words[6] = 1),
    ("equal sides", |lent, _| lent.words[5] = Node { fact: 0, low: 5, high: 5 }.word()),
    ("its own side", |lent, _| lent.words[5] = Node { fact: 0, low: 7, high: 5 }.word()),
    ("a side of the same fact", |lent, _| lent.words[5] = Node { fact: 0, low: 2, high: 5 }.word()),
    ("a side of a lower fact", |lent, _| lent.words[5] = Node { fact: 1, low: 2, high: 0 }.word()),
    ("a fact that is none", |lent, _| lent.words[5] = Node { fact: 2, low: 0, high: 1 }.word()),
    ("equal nodes", |lent, _| lent.words[5] = Node { fact: 0, low: 1, high: 5 }.word()),
];

/// A finished run of S with one entry to spare.
fn finished(job: &Job) -> Session<'_> {
    let mut session = Session::load(job, Engine::HONEST).expect("S has room");
    session.call(&run(8));
    session
}

/// What does not fit is 36 in every call, and nothing is written.
pub fn by_hand() -> Checked {
    let job = Job::new(7, &[], &s());
    for (what, change) in FITS {
        let mut session = finished(&job);
        change(&mut session.lent, &mut session.state);
        same(what, fit::fitting(session.file, &session.lent, session.state, Mutant::None).is_some(), true)?;
    }
    for (what, change) in FITS_NOT {
        let mut session = finished(&job);
        change(&mut session.lent, &mut session.state);
        refused(what, &session)?;
    }
    let mut other_file = finished(&job);
    let wet = encode(&wet());
    other_file.file = &wet;
    refused("another file", &other_file)?;
    other_file.file = &job.file[..73];
    refused("a broken file", &other_file)?;
    Ok(FITS.len() + FITS_NOT.len() + 2)
}

fn refused(what: &str, session: &Session) -> Result<(), String> {
    // 36 comes before 13, 14 and 16.
    for call in [run(5), update(2), update(9), close()] {
        let mut called = session.clone();
        same(what, called.call(&call).to_string().as_str(), "refused 36 0")?;
        same(what, (&called.lent, called.state), (&session.lent, session.state))?;
    }
    Ok(())
}

/// Loading: 36 after the file's refusals and before 12. Entries from 4,096 on and places from 544 on keep their values.
pub fn loading() -> Checked {
    let file = encode(&s());
    let load = |file: &[u8], words: usize, places: usize| {
        let mut lent = Lent { words: vec![5; words], places: vec![6; places] };
        let before = lent.clone();
        let step = Engine::HONEST.load(file, &mut lent);
        let kept = lent == before && step.state == State::ZEROS;
        (step.refusal, step.detail, kept)
    };
    same("short places", load(&file, 9, 543), (36, 0, true))?;
    same("short places and no room", load(&file, 0, 0), (36, 0, true))?;
    same("short places and a broken file", load(&file[..73], 9, 543), (8, 4, true))?;
    same("no room", load(&file, 1, 544), (12, 0, true))?;
    same("room", load(&file, 2, 544), (0, 0, false))?;
    let mut lent = Lent { words: vec![5; 4_100], places: vec![6; 550] };
    let state = Engine::HONEST.load(&file, &mut lent).state;
    let ran = Engine::HONEST.run(&file, &mut lent, state, 8);
    same("finished", ran.state, State { layer: FINISHED, nodes: 6 })?;
    same("words beyond", &lent.words[4_095..], &[0, 5, 5, 5, 5])?;
    same("places beyond", &lent.places[543..], &[0, 6, 6, 6, 6, 6, 6])?;
    Ok(6)
}

/// Three atoms, each of which follows from the next. From a store that fits but that no call gave, each round moves
/// their functions on, so no round is settled and every budget is spent.
pub fn swinging() -> Checked {
    let rules = vec![rule(2, &[yes(3)]), rule(3, &[yes(4)]), rule(4, &[yes(2)])];
    let job = Job::new(2, &[], &Program { facts: vec![(1, 1); 2], layers: vec![1; 3], rules });
    let budgets = [1, 2, 3, 4, 50, 12_000];
    for budget in budgets {
        let mut session = Session::load(&job, Engine::HONEST).map_err(|step| format!("{step:?}"))?;
        session.lent.places[3..5].copy_from_slice(&[2, 3]);
        same("answer", session.call(&run(budget)).to_string(), format!("spent {budget} 1 2"))?;
        same("closing", session.call(&close()).refusal(), 15)?;
    }
    Ok(budgets.len())
}
