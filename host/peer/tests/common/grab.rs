//! What a grab met and what it gave, told from the states before and after it. The order of jobs is written anew here.
use peer::server::{Job, Server};
use peer::state::has;
use std::cmp::Reverse;

/// A job and its place.
pub type Placed<'a> = (usize, &'a Job);

pub struct Grab<'a> {
    /// The queued jobs before it, and those among them that the sender could do, in the order of places.
    pub queued: Vec<Placed<'a>>,
    pub able: Vec<Placed<'a>>,
    /// How many jobs were held before it.
    pub held: usize,
    /// The job that the sender got.
    pub given: Option<Placed<'a>>,
}

impl<'a> Grab<'a> {
    pub fn new(before: &'a Server, after: &Server, sender: usize) -> Self {
        let jobs = || before.jobs.iter().enumerate().filter_map(|(place, job)| Some((place, job.as_ref()?)));
        let queued: Vec<_> = jobs().filter(|(_, job)| job.holder.is_none()).collect();
        let able = queued.iter().copied().filter(|(_, job)| has(before.able(job.function), sender)).collect();
        let got = |place: usize| after.jobs[place].is_some_and(|job| job.holder == Some(sender));
        let given = queued.iter().copied().find(|(place, _)| got(*place));
        Grab { held: jobs().count() - queued.len(), queued, able, given }
    }

    /// The queued job that is given out before all others, whoever can do it.
    pub fn best(&self) -> Option<Placed<'a>> {
        self.queued.iter().copied().max_by_key(|(_, job)| rank(job))
    }

    /// How many jobs that the sender could do are better than all such before them.
    pub fn better(&self) -> usize {
        let mut best = None;
        let mut better = |job: &Job| {
            let found = best.is_none_or(|best| rank(job) > best);
            best = best.max(Some(rank(job)));
            found
        };
        self.able.iter().filter(|(_, job)| better(job)).count()
    }
}

/// A higher one is given out first.
fn rank(job: &Job) -> (u8, Reverse<u32>) {
    (job.priority, Reverse(job.serial))
}
