//! Jobs gone through call by call, with each state on the way shown to a check.

use super::calls::Engine;
use super::job::{Call, Job};
use super::session::{Answer, Session};
use crate::support::checked::Checked;
use std::collections::HashSet;

/// A call with all that was there before and after it.
pub struct Moment<'a> {
    pub before: &'a Session<'a>,
    pub call: &'a Call,
    pub answer: Answer,
    pub after: &'a Session<'a>,
}

/// Gives the number of calls that it showed.
pub fn each_call<'a>(
    jobs: impl IntoIterator<Item = &'a Job>,
    mut see: impl FnMut(&Moment) -> Result<(), String>,
) -> Checked {
    let mut calls = 0;
    for job in jobs {
        let Ok(mut session) = Session::load(job, Engine::HONEST) else { continue };
        for (at, call) in job.calls.iter().enumerate() {
            let before = session.clone();
            let answer = session.call(call);
            let moment = Moment { before: &before, call, answer, after: &session };
            see(&moment).map_err(|reason| format!("{reason}; call {at} of {}", shown(job)))?;
            calls += 1;
        }
    }
    Ok(calls)
}

/// Shows each state that a call gave back, once. Gives the number of states.
pub fn each_state<'a>(
    jobs: impl IntoIterator<Item = &'a Job>,
    mut see: impl FnMut(&Session) -> Result<(), String>,
) -> Checked {
    let mut met = HashSet::new();
    each_call(jobs, |moment| {
        let Session { file, lent, state, .. } = moment.after;
        let new = met.insert((file.to_vec(), lent.words.clone(), lent.places.clone(), state.layer));
        if new {
            see(moment.after)
        } else {
            Ok(())
        }
    })?;
    Ok(met.len())
}

/// All that is needed to make the job again.
pub fn shown(job: &Job) -> String {
    let bytes = job.bytes();
    let shown: String = bytes.iter().take(300).map(|byte| format!("{byte:02x}")).collect();
    format!("job {shown}{}", if bytes.len() > 300 { ".." } else { "" })
}

/// Jobs with files and stores so small that much can be tried from each state.
pub fn small(jobs: &[Job]) -> impl Iterator<Item = &Job> {
    jobs.iter().filter(|job| job.file.len() < 400 && job.calls.len() < 40)
}
