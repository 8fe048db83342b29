//! Job files with records out of their ranges, for refusal 6: each range at its limits and one
//! beyond, in every table, and two broken records at once.

use crate::job::{tables_of, Condition, Effect, Goal, Job, Need, Step, TimedFact, Use};

/// Every field of the last records at each limit of its range and beyond it.
pub fn ranges(job: &Job) -> Vec<Job> {
    [
        facts(job),
        levels(job),
        steps(job),
        conditions(job),
        effects(job),
        uses(job),
        goals(job),
        timed_facts(job),
        needs(job),
    ]
    .concat()
}

fn facts(job: &Job) -> Vec<Job> {
    let set = |value: u16| {
        let mut job = job.clone();
        job.facts.push(value);
        job
    };
    [0, 1, 2, 128, 255].map(set).to_vec()
}

fn levels(job: &Job) -> Vec<Job> {
    let set = |(initial, least, most): (i64, i64, i64)| job.clone().level(initial, least, most);
    let far = 1_000_000_000;
    [
        (0, -far, far),
        (0, -far - 1, far),
        (0, -far, far + 1),
        (far, 0, far),
        (far + 1, 0, far + 1),
        (-far, -far, 0),
        (-far - 1, -far - 1, 0),
        (far, far, far),
        (-far, -far, -far),
        (0, 0, 0),
        (0, 1, 2),
        (3, 1, 2),
        (1, 1, 2),
        (2, 1, 2),
        (0, 1, -1),
        (0, i64::from(i32::MIN), far),
        (0, -far, i64::from(i32::MAX)),
        (i64::from(i32::MIN), i64::from(i32::MIN), 0),
    ]
    .map(set)
    .to_vec()
}

fn steps(job: &Job) -> Vec<Job> {
    let set = |(start, length, fixed): (i64, i64, u16)| {
        let mut job = job.clone();
        job.steps.push(Step {
            start,
            length,
            fixed,
        });
        job
    };
    let highest = i64::from(u32::MAX);
    let mut jobs = [
        (0, 0, 0),
        (0, 0, 1),
        (0, 0, 2),
        (0, 0, 256),
        (0, 0, 65_535),
        (1_000_000, 0, 0),
        (1_000_001, 0, 0),
        (1 << 31, 0, 0),
        (highest, 0, 0),
        (0, 100_000, 0),
        (0, 100_001, 0),
        (0, 1 << 31, 0),
        (0, highest, 0),
        (1_000_000, 100_000, 1),
    ]
    .map(set)
    .to_vec();
    jobs.extend(shortened_steps(job));
    jobs
}

/// A step shorter than what its records count on: a condition, an effect or a use breaks.
fn shortened_steps(job: &Job) -> Vec<Job> {
    let shortened = |step: usize| {
        let mut job = job.clone();
        job.steps[step].length = (job.steps[step].length - 1).max(0);
        job
    };
    (0..job.steps.len()).map(shortened).collect()
}

/// A name at the last record counted, one above, and far above.
fn names(count: usize) -> [usize; 4] {
    [count.saturating_sub(1), count, count + 256, 65_535]
}

fn conditions(job: &Job) -> Vec<Job> {
    let length = 7;
    let host = job.clone().step(0, length);
    let step = host.steps.len() - 1;
    let plain = Condition {
        step,
        fact: 0,
        from: 0,
        to: 0,
        wanted: 1,
    };
    let set = |condition: Condition| {
        let mut job = host.clone();
        job.conditions.push(condition);
        job
    };
    let highest = i64::from(u32::MAX);
    let times = [
        (0, length),
        (length, length),
        (0, length + 1),
        (length + 1, length + 1),
        (4, 3),
        (3, 3),
        (highest, highest),
        (0, highest),
        (highest, 0),
        (1 << 31, 3),
        (0, 1 << 31),
    ];
    let mut jobs = Vec::new();
    jobs.extend(times.map(|(from, to)| set(Condition { from, to, ..plain })));
    jobs.extend(names(host.steps.len()).map(|step| set(Condition { step, ..plain })));
    jobs.extend(names(host.facts.len()).map(|fact| set(Condition { fact, ..plain })));
    jobs.extend([0, 1, 2, 256, 65_535].map(|wanted| set(Condition { wanted, ..plain })));
    jobs
}

fn effects(job: &Job) -> Vec<Job> {
    let length = 7;
    let host = job.clone().step(0, length);
    let step = host.steps.len() - 1;
    let plain = Effect {
        step,
        fact: 0,
        at: 0,
        value: 1,
    };
    let set = |effect: Effect| {
        let mut job = host.clone();
        job.effects.push(effect);
        job
    };
    let mut jobs = Vec::new();
    jobs.extend(points(length).map(|at| set(Effect { at, ..plain })));
    jobs.extend(names(host.steps.len()).map(|step| set(Effect { step, ..plain })));
    jobs.extend(names(host.facts.len()).map(|fact| set(Effect { fact, ..plain })));
    jobs.extend([0, 1, 2, 256, 65_535].map(|value| set(Effect { value, ..plain })));
    jobs
}

fn uses(job: &Job) -> Vec<Job> {
    let length = 7;
    let host = job.clone().level(0, -9, 9).step(0, length);
    let step = host.steps.len() - 1;
    let plain = Use {
        step,
        level: 0,
        at: 0,
        amount: 1,
    };
    let set = |used: Use| {
        let mut job = host.clone();
        job.uses.push(used);
        job
    };
    let amounts = [
        0,
        -1,
        1_000_000,
        1_000_001,
        -1_000_000,
        -1_000_001,
        i64::from(i32::MIN),
        i64::from(i32::MAX),
    ];
    let mut jobs = Vec::new();
    jobs.extend(points(length).map(|at| set(Use { at, ..plain })));
    jobs.extend(names(host.steps.len()).map(|step| set(Use { step, ..plain })));
    jobs.extend(names(host.levels.len()).map(|level| set(Use { level, ..plain })));
    jobs.extend(amounts.map(|amount| set(Use { amount, ..plain })));
    jobs
}

fn points(length: i64) -> [i64; 5] {
    [0, length, length + 1, 1 << 31, i64::from(u32::MAX)]
}

fn goals(job: &Job) -> Vec<Job> {
    let plain = Goal {
        fact: 0,
        value: 1,
        deadline: None,
    };
    let set = |goal: Goal| {
        let mut job = job.clone();
        job.goals.push(goal);
        job
    };
    let deadlines = [0, 1_100_000, 1_100_001, 1 << 31, i64::from(u32::MAX) - 1];
    let mut jobs = vec![set(plain)];
    jobs.extend(names(job.facts.len()).map(|fact| set(Goal { fact, ..plain })));
    jobs.extend([0, 1, 2, 256, 65_535].map(|value| set(Goal { value, ..plain })));
    jobs.extend(deadlines.map(|tick| {
        let deadline = Some(tick);
        set(Goal { deadline, ..plain })
    }));
    jobs
}

/// None in edition 1, which has no table for them.
fn timed_facts(job: &Job) -> Vec<Job> {
    if job.edition == 1 {
        return vec![];
    }
    let plain = TimedFact {
        fact: 0,
        tick: 900,
        value: 1,
    };
    let set = |timed: TimedFact| {
        let mut job = job.clone();
        job.timed.push(timed);
        job
    };
    let ticks = [0, 1_100_000, 1_100_001, 1 << 31, i64::from(u32::MAX)];
    let mut jobs = Vec::new();
    jobs.extend(ticks.map(|tick| set(TimedFact { tick, ..plain })));
    jobs.extend(names(job.facts.len()).map(|fact| set(TimedFact { fact, ..plain })));
    jobs.extend([0, 1, 2, 256, 65_535].map(|value| set(TimedFact { value, ..plain })));
    jobs
}

/// None before edition 3, which is the first to have a table for them.
pub fn needs(job: &Job) -> Vec<Job> {
    if job.edition < 3 {
        return vec![];
    }
    let length = 7;
    let host = job.clone().step(0, length);
    let step = host.steps.len() - 1;
    let plain = Need {
        step,
        level: 0,
        at: 0,
        least: 1,
    };
    let set = |need: Need| {
        let mut job = host.clone();
        job.needs.push(need);
        job
    };
    let far = 1_000_000_000;
    let leasts = [
        0,
        far,
        far + 1,
        -far,
        -far - 1,
        i64::from(i32::MIN),
        i64::from(i32::MAX),
    ];
    let mut jobs = Vec::new();
    jobs.extend(points(length).map(|at| set(Need { at, ..plain })));
    jobs.extend(names(host.steps.len()).map(|step| set(Need { step, ..plain })));
    jobs.extend(names(host.levels.len()).map(|level| set(Need { level, ..plain })));
    jobs.extend(leasts.map(|least| set(Need { least, ..plain })));
    jobs
}

/// Two broken records, of one table or of two. The earlier a table, the later its broken record, so
/// that the place tells which of two tables was looked at first.
pub fn two_broken_records(edition: u16) -> Vec<Job> {
    let tables = tables_of(edition);
    let spots: Vec<(usize, usize)> = (0..tables)
        .flat_map(|table| [(table, tables - table), (table, tables - table + 1)])
        .collect();
    let mut jobs = Vec::new();
    for (number, &one) in spots.iter().enumerate() {
        for &other in &spots[..number] {
            let mut job = several_of_each(edition, tables + 2);
            broken_at(&mut job, one);
            broken_at(&mut job, other);
            jobs.push(job);
        }
    }
    jobs
}

fn several_of_each(edition: u16, several: usize) -> Job {
    let mut job = Job::with_facts(&vec![0; several]).edition(edition);
    for number in 0..several {
        job = job.level(0, -9, 9).step(0, 9);
        let at = number as i64 % 10;
        job = job
            .condition(0, number, 0, 9, 0)
            .effect(number, number, at, 0);
        job = job.uses(0, number, 0, 1).goal(number, 0);
        if edition > 1 {
            job = job.timed(number, at, 0);
        }
        if edition > 2 {
            job = job.need(number, number, at, -9);
        }
    }
    job
}

fn broken_at(job: &mut Job, (table, number): (usize, usize)) {
    match table {
        0 => job.facts[number] = 2,
        1 => job.levels[number].least = 1,
        2 => job.steps[number].fixed = 2,
        3 => job.conditions[number].wanted = 2,
        4 => job.effects[number].value = 2,
        5 => job.uses[number].amount = 0,
        6 => job.goals[number].value = 2,
        7 => job.timed[number].value = 2,
        _ => job.needs[number].at = 10,
    }
}
