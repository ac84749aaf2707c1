//! Requests with keys, names, collections and checkpoints.

use super::super::keys::form_of;
use super::*;
use crate::api::plan::Plan;
use crate::api::remembered::{Asked, Begun, Keep};
use crate::api::run::{Committed, End, Failed, Pace};
use crate::shares;
use crate::testing::{run, tidy};

const NAMES: [&str; 2] = ["x", "y"];

impl Model {
    /// A new one, or one that was made before, in this life or in another.
    pub(super) fn request(&mut self) -> Judged {
        let count = self.requests.len() as u64;
        let is_again = count > 0 && self.dice.one_in(2);
        let number = if is_again { count - 1 - self.dice.below(count.min(6)) } else { count };
        let (key, writes) = (format!("key{number}"), self.dice.below(3));
        let step = |dice: &mut Dice, write: u64| match dice.below(4) {
            0 => format!(r#"{{"get":"{}"}}"#, dice.of(&KEYS)),
            _ => format!(r#"{{"put":"{}","value":"{number}.{write}"}}"#, dice.of(&KEYS)),
        };
        let steps: Vec<String> = (0..writes).map(|write| step(&mut self.dice, write)).collect();
        let body = format!(r#"{{"then":[{}]}}"#, steps.join(","));
        let (body, _) = self.requests.entry(key.clone()).or_insert((body, Vec::new()));
        let body = body.clone();
        let before = self.life().core.transcript.next();
        self.ask(&key, &body)?;
        self.settle(before);
        self.tell();
        Ok(())
    }

    fn ask(&mut self, key: &str, body: &str) -> Judged {
        let life = self.life.as_mut().expect("a life has begun");
        let before = life.core.transcript.next();
        let begun = begun(&life.remembered, key, body);
        let done = &mut self.requests.get_mut(key).expect("it was asked").1;
        match begun {
            Begun::Told(answer) => {
                self.repeated += 1;
                match done.last() {
                    Some(last) if last.form == *answer.form() => {}
                    Some(last) => return Err(format!("{key} was told {:?}, and then {:?}", last.form, answer.form())),
                    None => return Err(format!("{key} is told what was lost")),
                }
            }
            Begun::Runs(running) => {
                let plan = Plan::of(body.as_bytes()).expect("a plan");
                let ended =
                    run(&mut life.core, &plan, Pace::Whole, Some(&Keep { running: &running, form_of: &form_of }));
                drop(running);
                let rests = match &ended {
                    Ok(End::Committed(Committed { rests, .. }) | End::Failed(Failed { rests, .. })) => *rests,
                    Err(_) => life.core.journal.all(),
                };
                // What has written nothing is done anew.
                if let Ok(End::Committed(Committed { timestamp, form: Some(form), .. })) = ended {
                    if let Some(last) = done.last() {
                        return Err(format!("{key} was done at {}, and at {timestamp}", last.timestamp));
                    }
                    done.push(Done { timestamp, form, rests });
                }
                let events = before..life.core.transcript.next();
                life.answers.push_back(Untold { events, rests });
            }
        }
        Ok(())
    }

    // ---- names, collections, checkpoints

    pub(super) fn name(&mut self) -> Judged {
        let (name, kind) = (*self.dice.of(&NAMES), self.dice.below(10));
        let told = self.generation;
        let life = self.life.as_mut().expect("a life has begun");
        let before = life.core.transcript.next();
        match kind {
            0..=3 => {
                let generation = follow(&mut life.core, name);
                if generation <= told {
                    return Err(format!("generation {generation} after {told}"));
                }
                life.facts.push_back((life.core.journal.all(), Fact::Generation(generation)));
            }
            4..=8 => {
                let (closed, line) = (life.core.ledger.closed, life.core.line_of(&name.into()));
                let generation = number_of(&line, "generation").unwrap_or(0);
                if life.core.store(&name.into(), closed, generation, &shares::Client::SERVER).is_ok() {
                    life.facts.push_back((life.core.journal.all(), Fact::Stored(name, closed)));
                }
            }
            _ => {
                life.core.forget(&name.into());
                self.stored.remove(name);
                life.facts.retain(|(_, fact)| !matches!(fact, Fact::Stored(other, _) if *other == name));
            }
        }
        self.settle(before);
        Ok(())
    }

    /// A consumer comes back: what it has stored is held for it.
    pub(super) fn look_at_names(&mut self) -> Judged {
        for (name, stored) in self.stored.clone() {
            let core = &mut self.life().core;
            let line = core.line_of(&name.into());
            // What it has stored and wasn't told of may be there too.
            let Some(place) = number_of(&line, "stored").filter(|place| *place >= stored) else {
                return Err(format!("{name} has stored {stored}, and there is {line}"));
            };
            let opened = core.ask(Owner::Server, Command::Open { span: Span::ALL, cursor: place });
            match opened {
                Ok(crate::outcome::Outcome::Opened { feed, .. }) => core.end_stream(feed),
                other => return Err(format!("{name} has stored {place}, and a feed from there is {other:?}")),
            }
        }
        Ok(())
    }

    pub(super) fn tidy(&mut self) {
        let before = self.life().core.transcript.next();
        tidy(&mut self.life().core);
        self.settle(before);
    }

    /// One step of a checkpoint.
    pub(super) fn checkpoint(&mut self) -> Judged {
        let life = self.life.as_mut().expect("a life has begun");
        let before = life.core.transcript.next();
        life.making =
            step_of(life.making.take(), &mut life.core, &life.remembered).map_err(|error| error.to_string())?;
        self.settle(before);
        Ok(())
    }
}

fn step_of(
    making: Option<(Making, Stage)>,
    core: &mut Core,
    remembered: &Remembered,
) -> Result<Option<(Making, Stage)>, checkpoint::Error> {
    let Some((mut making, stage)) = making else {
        return Ok(Making::begin(core, remembered).ok().map(|making| (making, Stage::Switching)));
    };
    let next = match stage {
        Stage::Switching if making.has_draft() => {
            making.write_answers(remembered)?;
            Stage::Copying
        }
        Stage::Copying => {
            let next = making.turn(core, Instant::now())?;
            making.write(next)?;
            if next == Next::Done {
                Stage::Written(making.rests(core))
            } else {
                Stage::Copying
            }
        }
        Stage::Written(ticket) if core.journal.durable().has(ticket) => {
            making.finish()?;
            making.end(core);
            return Ok(None);
        }
        stage => stage,
    };
    Ok(Some((making, next)))
}

fn begun<'a>(remembered: &'a Remembered, key: &str, body: &str) -> Begun<'a> {
    let runtime = tokio::runtime::Builder::new_current_thread().enable_time().build().expect("a runtime");
    let mut asked = Asked::new(&shares::Client::SERVER, "", key, &[body.as_bytes()]);
    runtime.block_on(remembered.begin(&mut asked, Instant::now())).expect("there is room")
}

fn number_of(line: &str, member: &str) -> Option<u64> {
    let (_, rest) = line.split_once(&format!("\"{member}\":\""))?;
    rest.split('"').next()?.parse().ok()
}
