//! Many tables tried on the archive, each in place of the table of one state; lines asked of it, and events described.
#![forbid(unsafe_code)]

use crate::counts::Counts;
use crate::event::Event;
use crate::hex;
use crate::histories::History;
use crate::image;
use crate::lent::Host;
use crate::outbox::Outbox;
use crate::questions::Question;
use crate::random::Random;
use crate::rules;
use crate::server::{Server, BAD_LENT};

pub struct Trial<'a> {
    server: &'a Server,
    table: Vec<u8>,
    host: Host,
    history: History,
    pub random: Random,
    out: Outbox,
}

/// What gives the event that follows, from the state that the table says.
type Choose = fn(&Server, &mut Random) -> Event;

impl<'a> Trial<'a> {
    pub fn new(server: &'a Server, seed: u64) -> Self {
        let mut random = Random::new(seed);
        let mut host = Host::new(&mut random);
        let table = image::image(server);
        host.set(&table, &server.workloads);
        Trial { server, table, host, history: History::new(seed), random, out: Outbox::default() }
    }

    /// The state's own table.
    pub fn table(&self) -> &[u8] {
        &self.table
    }

    /// The archive must refuse by 1 exactly if a rule is broken; otherwise it must go on from what the bytes say. A
    /// random line is asked, then comes an event, a random one or the chosen one. Gives back whether the table obeys.
    pub fn compare(&mut self, bytes: &[u8], choose: Option<Choose>, counts: &mut Counts) -> Result<bool, String> {
        self.host.set(bytes, &[]);
        let obeys = image::obeys(bytes);
        if obeys {
            self.goes_on(bytes, choose, counts)?;
        } else {
            self.is_refused(counts).map_err(|text| format!("broken: {:?}\n{text}", rules::broken(bytes)))?;
        }
        self.host.set(&self.table, &[]);
        Ok(obeys)
    }

    fn is_refused(&mut self, counts: &mut Counts) -> Result<(), String> {
        let question = Question::random(self.server, &mut self.random);
        counts.add_text(&question.line, BAD_LENT);
        self.host.asked(&question, BAD_LENT, &[]).map_err(|text| format!("{question}\n{text}"))?;
        let event = self.history.next(self.server);
        counts.numbers[BAD_LENT as usize] += 1;
        self.host.refused(&event).map_err(|text| format!("{event}\n{text}"))
    }

    fn goes_on(&mut self, bytes: &[u8], choose: Option<Choose>, counts: &mut Counts) -> Result<(), String> {
        let mut server = image::read(bytes, &self.server.workloads);
        let question = Question::random(&server, &mut self.random);
        let (number, text) = question.run(&server);
        counts.add_text(&question.line, number);
        self.host.asked(&question, number, &text).map_err(|text| format!("no rule is broken\n{question}\n{text}"))?;
        let event = match choose {
            Some(choose) => choose(&server, &mut self.random),
            None => self.history.next(&server),
        };
        let number = event.run(&mut server, &mut self.out);
        counts.add(&event, number, &self.out, &server);
        self.host
            .step(&event, &server, number, self.out.bytes())
            .map_err(|text| format!("no rule is broken\n{event}\n{text}"))?;
        self.host.set(&[], &self.server.workloads);
        Ok(())
    }
}

/// The archive must answer a line as the ordinary server does.
pub fn ask(host: &mut Host, question: &Question, server: &Server, counts: &mut Counts) -> Result<(), String> {
    let (number, text) = question.run(server);
    counts.add_text(&question.line, number);
    host.asked(question, number, &text)
        .map_err(|found| format!("{question}\nright: number {number}, text \"{}\"\n{found}", text.escape_ascii()))
}

/// An event of a history, the right answer, and what came instead.
pub fn described(index: usize, event: &Event, number: u32, out: &Outbox, text: &str) -> String {
    let packets: Vec<String> = out.addressed().map(hex::write).collect();
    format!("event {index}: {event}\nright: number {number}, packets {packets:?}\n{text}")
}
