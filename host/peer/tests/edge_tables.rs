//! The tables that are made on purpose: each breaks the rule that it is made for, and the others break none.
use peer::edge_tables::{all, event_about};
use peer::image::{image, read};
use peer::outbox::Outbox;
use peer::random::Random;
use peer::rules::broken;

#[test]
fn each_table_breaks_what_it_is_made_for() {
    let (mut good, mut bad) = (0, 0);
    for base in all() {
        let bytes = image(&base.server);
        assert_eq!(broken(&bytes), Vec::<&str>::new(), "{}", base.name);
        for change in &base.changes {
            let table = change.table(&bytes);
            let rules = broken(&table);
            match change.breaks {
                Some(rule) => {
                    bad += 1;
                    assert!(rules.iter().any(|name| name.starts_with(rule)), "{}: {rules:?}, {change}", base.name);
                }
                None => {
                    good += 1;
                    assert!(rules.is_empty(), "{}: {rules:?}, {change}", base.name);
                    assert_eq!(image(&read(&table, &base.server.workloads)), table);
                }
            }
        }
    }
    assert!(good > 5_000 && bad > 10_000, "{good} {bad}");
}

#[test]
fn the_events_about_a_table_join_its_jobs() {
    let mut out = Outbox::default();
    let mut random = Random::new(1);
    let mut joins = 0;
    for base in all() {
        for _ in 0..50 {
            let mut server = base.server.clone();
            let event = event_about(&server, &mut random);
            let number = event.run(&mut server, &mut out);
            // A full table refuses a submission that joins nothing, the serials may be at their end, and a worker
            // packet may name a job that is not held, or another hub's.
            assert!([0, 11, 12, 13, 14].contains(&number), "{}: {number}, {event}", base.name);
            let created = number == 0 && out.bytes().get(8) == Some(&8);
            joins += usize::from(created && server.last_serial == base.server.last_serial);
        }
    }
    assert!(joins > 100, "{joins}");
}
