//! The cases of bench's second part: each of their grabs meets the queue that the case is named for.
mod common;
use common::grab::Grab;
use common::opened;
use peer::load::{grabs, Case, GRAB};
use peer::outbox::Outbox;
use peer::server::Server;
use peer::state::only;

/// Runs a case, of which nothing may be refused, and shows each grab to `look`: the states before and after it, its
/// sender, and the type of the answer.
fn run(case: &Case, mut look: impl FnMut(&Server, &Server, usize, u8)) {
    let mut server = opened(&(0..16).collect::<Vec<_>>());
    let mut out = Outbox::default();
    for (index, step) in case.before.iter().chain(&case.steps).enumerate() {
        let before = server.clone();
        out.clear();
        let number = server.packet_into(u32::from(step.connection), case.packet(step), &mut out);
        assert_eq!(number, 0, "{}", case.name);
        if index >= case.before.len() && usize::from(step.kind) == GRAB {
            look(&before, &server, usize::from(step.connection), out.bytes()[8]);
        }
    }
}

/// Queued and held jobs before a grab, the place of the best queued one, how many jobs that the sender can do are
/// better than all such before them, and place and priority of the job that it gets.
type Seen = (usize, usize, Option<usize>, usize, Option<(usize, u8)>);

/// A grab that gets the best job of 32 queued ones, at this place and of this priority.
fn best(place: usize, priority: u8, better: usize) -> Seen {
    (32, 0, Some(place), better, Some((place, priority)))
}

#[test]
fn the_grabs_do_what_their_cases_are_named_for() {
    // Of each case, what its grab of this number must be.
    let right: [fn(usize) -> Seen; 11] = [
        |_| (32, 0, Some(0), 0, None),
        |_| (0, 0, None, 0, None),
        |_| (0, 32, None, 0, None),
        |_| (1, 0, Some(0), 1, Some((0, 1))),
        |_| best(0, 2, 1),
        |_| best(16, 2, 2),
        |_| best(31, 2, 2),
        |number| best(number % 32, 1, if number % 32 == 0 { 1 } else { 2 }),
        |number| best((30 + 31 * number) % 32, 1, (30 + 31 * number) % 32 + 1),
        |number| (32, 0, Some(0), if number % 31 == 0 { 1 } else { 2 }, Some((1 + number % 31, 1))),
        |_| best(31, 2, 32),
    ];
    let cases = grabs::cases(1_002);
    assert_eq!(cases.len(), right.len());
    for (case, right) in cases.iter().zip(right) {
        let mut number = 0;
        run(case, |before, after, sender, answer| {
            let grab = Grab::new(before, after, sender);
            let best = grab.best().map(|(place, _)| place);
            let given = grab.given.map(|(place, job)| (place, job.priority));
            let seen = (grab.queued.len(), grab.held, best, grab.better(), given);
            assert_eq!(seen, right(number), "{}, grab {number}", case.name);
            assert_eq!(answer, if given.is_none() { 10 } else { 11 }, "{}", case.name);
            number += 1;
        });
        // Where no job is given every event is a grab, elsewhere one of three.
        assert_eq!(number, if right(0).4.is_none() { 1_002 } else { 334 }, "{}", case.name);
        assert!(case.name.len() <= 42, "'{}' is wider than its column", case.name);
    }
}

/// Who could do the jobs that the sender does not get.
#[test]
fn the_grabs_pass_by_what_others_can_do() {
    let cases = grabs::cases(102);
    let case = |name: &str| cases.iter().find(|case| case.name == name).unwrap();
    run(case("32 queued, the sender can do nothing"), |before, _, sender, _| {
        assert!(before.functions.iter().flatten().all(|known| known.able != 0 && known.able & only(sender) == 0));
    });
    run(case("no job at all"), |before, _, sender, _| assert_eq!(before.able(0), only(sender)));
    run(case("32 held by another, none queued"), |before, _, sender, _| {
        assert!(before.jobs.iter().flatten().all(|job| job.holder.is_some_and(|holder| holder != sender)));
        assert!(before.jobs.iter().flatten().all(|job| before.able(job.function) & only(sender) != 0));
    });
    run(case("32 queued, the best is for another"), |before, _, sender, _| {
        let best = before.jobs[0].unwrap();
        assert!(best.priority == 2 && before.able(best.function) != 0);
        assert_eq!(before.able(best.function) & only(sender), 0);
    });
}
