//! What a supplier means, before it is put into words, and the job that it is.

use crate::job::{Condition, Effect, Goal, Job, Level, Step, Use, HIGHEST};
use crate::refusal::{Refusal, Verdict};
use crate::timing::check_job;

/// Facts and levels have numbers of the supplier's own here.
#[derive(Clone, Debug, Default)]
pub struct Supplied {
    pub actions: Vec<Action>,
    pub init: Vec<Init>,
    pub goals: Vec<(usize, u16)>,
    /// A start and the number of an action.
    pub plan: Vec<(i64, usize)>,
}

#[derive(Clone, Debug, Default)]
pub struct Action {
    pub duration: i64,
    pub conditions: Vec<Wanted>,
    pub effects: Vec<(End, Done)>,
}

#[derive(Clone, Copy, Debug, PartialEq, Eq)]
pub enum End {
    Start,
    End,
}

/// Over all, unless there is an end at which it is wanted.
#[derive(Clone, Copy, Debug)]
pub struct Wanted {
    pub at: Option<End>,
    pub fact: usize,
    pub value: u16,
}

#[derive(Clone, Copy, Debug)]
pub enum Done {
    Set(usize, u16),
    Change(usize, i64),
}

#[derive(Clone, Copy, Debug)]
pub enum Init {
    Fact(usize),
    Level(usize, i64),
}

impl Supplied {
    /// The supplier's facts in the order in which the text mentions them.
    pub fn facts(&self) -> Vec<usize> {
        let in_actions = self.actions.iter().flat_map(Action::facts);
        let in_init = self.init.iter().filter_map(|init| match init {
            Init::Fact(fact) => Some(*fact),
            Init::Level(..) => None,
        });
        let in_goals = self.goals.iter().map(|&(fact, _)| fact);
        without_repeats(in_actions.chain(in_init).chain(in_goals))
    }

    pub fn levels(&self) -> Vec<usize> {
        let in_actions = self.actions.iter().flat_map(Action::levels);
        let in_init = self.init.iter().filter_map(|init| match init {
            Init::Fact(_) => None,
            Init::Level(level, _) => Some(*level),
        });
        without_repeats(in_actions.chain(in_init))
    }

    /// The job, or refusal 4 or one of those after it.
    pub fn checked(&self) -> Result<Job, Refusal> {
        let job = self.job();
        let mut counts = job.counts().into_iter().zip(HIGHEST);
        if counts.any(|(count, highest)| count > highest) {
            return Err(Refusal::nowhere(4));
        }
        check_job(&job.to_file())?;
        Ok(job)
    }

    pub fn verdict(&self) -> Verdict {
        self.checked().map(|_| ())
    }

    pub fn job(&self) -> Job {
        let (facts, levels) = (self.facts(), self.levels());
        let mut job = Job {
            facts: facts.iter().map(|&fact| self.initial_fact(fact)).collect(),
            levels: levels.iter().map(|&level| self.level(level)).collect(),
            ..Job::default()
        };
        let fact = |own| number_in(&facts, own);
        let level = |own| number_in(&levels, own);
        for (step, &(start, action)) in self.plan.iter().enumerate() {
            let action = &self.actions[action];
            job.steps.push(Step {
                start,
                length: action.duration,
                fixed: 0,
            });
            action.put_conditions(&mut job, step, fact);
            action.put_effects(&mut job, step, fact, level);
        }
        let goal = |&(own, value): &(usize, u16)| Goal {
            fact: fact(own),
            value,
            deadline: None,
        };
        job.goals = self.goals.iter().map(goal).collect();
        job
    }

    fn initial_fact(&self, fact: usize) -> u16 {
        let mut init = self.init.iter();
        u16::from(init.any(|init| matches!(init, Init::Fact(listed) if *listed == fact)))
    }

    fn level(&self, level: usize) -> Level {
        let listed = self.init.iter().find_map(|init| match init {
            Init::Level(listed, amount) if *listed == level => Some(*amount),
            _ => None,
        });
        Level {
            initial: listed.unwrap_or(0),
            least: 0,
            most: 1_000_000_000,
        }
    }
}

impl Action {
    fn facts(&self) -> impl Iterator<Item = usize> + '_ {
        let wanted = self.conditions.iter().map(|wanted| wanted.fact);
        let set = self.effects.iter().filter_map(|(_, done)| match done {
            Done::Set(fact, _) => Some(*fact),
            Done::Change(..) => None,
        });
        wanted.chain(set)
    }

    fn levels(&self) -> impl Iterator<Item = usize> + '_ {
        self.effects.iter().filter_map(|(_, done)| match done {
            Done::Set(..) => None,
            Done::Change(level, _) => Some(*level),
        })
    }

    fn put_conditions(&self, job: &mut Job, step: usize, fact: impl Fn(usize) -> usize) {
        for wanted in &self.conditions {
            let (from, to) = match wanted.at {
                Some(end) => (self.point(end), self.point(end)),
                None if self.duration < 2 => continue,
                None => (1, self.duration - 1),
            };
            job.conditions.push(Condition {
                step,
                fact: fact(wanted.fact),
                from,
                to,
                wanted: wanted.value,
            });
        }
    }

    fn put_effects(
        &self,
        job: &mut Job,
        step: usize,
        fact: impl Fn(usize) -> usize,
        level: impl Fn(usize) -> usize,
    ) {
        for &(end, done) in &self.effects {
            let at = self.point(end);
            match done {
                Done::Set(own, value) => job.effects.push(Effect {
                    step,
                    fact: fact(own),
                    at,
                    value,
                }),
                Done::Change(own, amount) => job.uses.push(Use {
                    step,
                    level: level(own),
                    at,
                    amount,
                }),
            }
        }
    }

    /// From the action's start.
    pub fn point(&self, end: End) -> i64 {
        match end {
            End::Start => 0,
            End::End => self.duration,
        }
    }
}

fn number_in(mentioned: &[usize], own: usize) -> usize {
    let number = mentioned.iter().position(|&other| other == own);
    number.expect("it is mentioned")
}

fn without_repeats(mentioned: impl Iterator<Item = usize>) -> Vec<usize> {
    let mut first = Vec::new();
    for number in mentioned {
        if !first.contains(&number) {
            first.push(number);
        }
    }
    first
}
