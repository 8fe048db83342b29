//! Whom a tie goes to, worked out by hand; the mistaken answer beside it. And mistaken versions of
//! the rule, each told by some of these jobs.

use std::collections::BTreeSet;

use reference::brute::{try_anywhere, Tried};
use reference::job::Job;
use reference::loosen::order_file_of;
use reference::make::sound::some_sound_job;
use reference::make::ties::*;
use reference::order_file::{Link, OrderFile};
use reference::random::Random;
use reference::setters::{setters, Setter};

fn loosened(job: &Job) -> OrderFile {
    order_file_of(&job.to_file()).expect("a job with a tie is sound")
}

/// As they are written, −1 for the initial state.
fn links(job: Job) -> Vec<i64> {
    let number = |link: &Link| match *link {
        Link::InitialState => -1,
        link => i64::from(link.number()),
    };
    loosened(&job).links.iter().map(number).collect()
}

fn orders(job: Job) -> Vec<(usize, usize, i64)> {
    let file = loosened(&job);
    let orders = file.orders.iter();
    orders.map(|o| (o.first, o.second, o.gap)).collect()
}

fn links_and_orders(job: Job) -> (Vec<i64>, Vec<(usize, usize, i64)>) {
    (links(job.clone()), orders(job))
}

/// Latest starts, −1 for none.
fn latest(job: Job) -> Vec<i64> {
    let windows = loosened(&job).windows;
    windows.iter().map(|w| w.latest.unwrap_or(-1)).collect()
}

fn limits(job: Job) -> Vec<i64> {
    loosened(&job).windows.iter().map(|w| w.limit).collect()
}

fn earliest_and_rounds(job: Job) -> (Vec<i64>, usize) {
    let file = loosened(&job);
    (file.earliest_times(), file.rounds)
}

// ---------------------------------------------------------------------------------------------
// By hand

#[test]
fn the_own_step_comes_first() {
    // The lower number would be 0, with order (0, 1, 6), earliest 0 and 6, and two rounds.
    let job = own_step_beats_a_lower_number;
    assert_eq!(links_and_orders(job()), (vec![1], vec![]));
    assert_eq!(earliest_and_rounds(job()), (vec![0, 0], 1));
    let job = own_step_with_the_lower_number;
    assert_eq!(links_and_orders(job()), (vec![0], vec![]));
    // The higher of the own would be 2, the lower number 0.
    let job = lower_of_two_effects_of_the_own_step;
    assert_eq!(links_and_orders(job()), (vec![1], vec![]));
    let job = another_step_between_two_effects_of_the_own;
    assert_eq!(links_and_orders(job()), (vec![0], vec![]));
    let job = two_effects_of_the_own_lower_step;
    assert_eq!(links_and_orders(job()), (vec![2], vec![]));
    // The lower number would be 0, the lower step 1.
    let job = own_step_after_two_others;
    assert_eq!(links_and_orders(job()), (vec![2], vec![]));
    // The lower number would be 0, with order (0, 1, 6).
    let job = own_step_gives_zero;
    assert_eq!(links_and_orders(job()), (vec![1, 0], vec![]));
    assert_eq!(latest(job()), [0, -1]);
}

#[test]
fn every_condition_has_its_own_step() {
    // The lower number would be 0 for all three, with order (1, 0, −5).
    let job = each_condition_has_its_own;
    assert_eq!(links_and_orders(job()), (vec![0, 0, 1], vec![(1, 2, 3)]));
    // The lower number would be 0 for all, with orders from step 3 to all others.
    let job = each_step_supports_itself;
    assert_eq!(links_and_orders(job()), (vec![3, 1, 4, 0, 2], vec![]));
}

#[test]
fn without_the_own_step_the_lower_effect() {
    // The lower step would be effect 1.
    let job = tie_goes_to_the_lower_effect;
    assert_eq!(links_and_orders(job()), (vec![0, 0], vec![(1, 2, 5)]));
    assert_eq!(latest(job()), [-1, 4, -1]);
    // Whatever the own step sets would be 1.
    let job = own_step_sets_another_fact;
    assert_eq!(links_and_orders(job()), (vec![0], vec![(0, 1, 6)]));
}

#[test]
fn what_is_no_tie() {
    // The own step, whatever the tick, would be 0 in the first three, without an order.
    let job = third_step_before_the_tie;
    assert_eq!(links_and_orders(job()), (vec![2], vec![(2, 1, 1)]));
    let job = own_step_at_the_first_tick;
    assert_eq!(links_and_orders(job()), (vec![1], vec![(0, 1, 6)]));
    let job = tie_at_the_first_tick;
    assert_eq!(links_and_orders(job()), (vec![2], vec![(0, 1, 6)]));
    // The earlier tie would be 0, the lower number of the later 3 with order (0, 1, −3).
    let job = tie_after_an_opposing_effect;
    let around = [(0, 2, 3), (1, 2, 2), (2, 0, -7), (2, 1, -6)];
    assert_eq!(links_and_orders(job()), (vec![4], around.to_vec()));
    // The own step would be 1.
    let job = initial_state_before_the_own_step;
    assert_eq!(links_and_orders(job()), (vec![-1], vec![]));
}

#[test]
fn fixed_steps_of_a_tie() {
    let job = own_step_is_fixed;
    assert_eq!(links_and_orders(job()), (vec![1], vec![]));
    assert_eq!(limits(job()), [0, 8]);
    assert_eq!(latest(job()), [-1, 8]);
    // The fixed step would raise the own to 6.
    let job = other_step_of_the_tie_is_fixed;
    assert_eq!(links_and_orders(job()), (vec![1], vec![]));
    assert_eq!(earliest_and_rounds(job()), (vec![0, 0], 1));
}

#[test]
fn goals_have_no_own_step() {
    // Goal 0 as step 0's would be 1, with latest start 6 for step 0.
    let job = goals_keep_the_lower_effect;
    assert_eq!(links(job()), [0, 0]);
    assert_eq!(latest(job()), [-1, 4]);
    // The condition's own for both would be 1 and 1, with latest start 10 for step 1.
    let job = goal_and_condition_of_one_tie;
    assert_eq!(links(job()), [1, 0]);
    assert_eq!(latest(job()), [2, -1]);
}

#[test]
fn the_clock_comes_last() {
    // The lower number would be 0, the clock 512 with limit 6 for step 1.
    let job = own_step_beside_another_and_the_clock;
    assert_eq!(links_and_orders(job()), (vec![1], vec![]));
    assert_eq!(limits(job()), [0, 0]);
    // The clock as step 0 would be 512, with limit 11 for step 0.
    let job = another_step_beside_the_clock;
    assert_eq!(links_and_orders(job()), (vec![0], vec![(1, 0, 11)]));
    assert_eq!(limits(job()), [0, 0]);
    // The lower number, whatever the tick, would be 0; the clock 512.
    let job = own_step_beside_the_clock_and_another_later;
    assert_eq!(links_and_orders(job()), (vec![1], vec![]));
    // The own step, whatever the tick, would be 1.
    let job = clock_before_the_tie;
    assert_eq!(links_and_orders(job()), (vec![512], vec![]));
    assert_eq!(limits(job()), [0, 5]);
    // The lower number would be 0, with order (0, 1, 6).
    let job = tie_after_an_opposing_timed_fact;
    assert_eq!(links_and_orders(job()), (vec![1], vec![]));
    assert_eq!(limits(job()), [0, 8]);
    // The clock as whoever has no step would be 512, without a latest start.
    let job = goal_of_a_step_beside_the_clock;
    assert_eq!((links(job()), latest(job())), (vec![0], vec![6]));
    let job = goals_of_two_steps_beside_the_clock;
    assert_eq!((links(job()), latest(job())), (vec![0, 0], vec![-1, 4]));
    // The own step, whatever the tick, would be 0.
    let job = tie_of_the_clock_alone;
    assert_eq!((links(job()), limits(job())), (vec![512, 512], vec![6]));
}

#[test]
fn ties_of_512_effects() {
    for job in [every_step_in_one_tie, every_step_and_the_clock_in_one_tie] {
        // Step 7 gives effect 0, step 36 effect 1, step 1 effect 2, step 30 effect 3 and
        // step 63 effect 24.
        let links = links(job());
        assert_eq!(
            [links[7], links[36], links[1], links[30], links[63]],
            [0, 1, 2, 3, 24]
        );
        let (first, rest) = links[..512].split_at(64);
        assert!(rest.chunks(64).all(|again| again == first));
        let mut numbers = first.to_vec();
        numbers.sort();
        assert_eq!(numbers, (0..64).collect::<Vec<i64>>());
        assert_eq!(links[512..], [0; 32]);
        assert_eq!(orders(job()), []);
    }
    for job in [no_own_step_in_one_tie, no_own_step_and_the_clock_in_one_tie] {
        assert_eq!(links(job()), [0; 544]);
        // All of step 63, whose effect is at 63; the first condition of step s is at s + 1.
        let even = (0..64).step_by(2);
        let expected: Vec<_> = even.map(|s| (63, s, 63 - s as i64)).collect();
        assert_eq!(orders(job()), expected);
    }
}

// ---------------------------------------------------------------------------------------------
// Mistakes

/// What wants a value: a condition has a step, a goal has none; both have a number.
struct Wanting {
    step: Option<usize>,
    number: usize,
}

/// Chooses from all that gives the value after the last opposing effect before it is wanted.
type Rule = fn(&Wanting, &[Setter]) -> Link;

fn least<K: Ord>(giving: &[Setter], key: impl Fn(&Setter) -> K) -> Link {
    giving.iter().min_by_key(|s| key(s)).expect("a giver").link
}

fn is_own(wanting: &Wanting, s: &Setter) -> bool {
    wanting.step.is_some_and(|step| s.is_of(step))
}

fn right(wanting: &Wanting, giving: &[Setter]) -> Link {
    least(giving, |s| (s.tick, !is_own(wanting, s), s.link.number()))
}

type Mistake = (&'static str, Rule);

fn by_the_lower_number_alone(_: &Wanting, giving: &[Setter]) -> Link {
    least(giving, |s| (s.tick, s.link.number()))
}

fn mistaken_choices() -> Vec<Mistake> {
    vec![
        ("the lower number, whoever's", by_the_lower_number_alone),
        ("the own step, whatever the tick", |wanting, giving| {
            least(giving, |s| (!is_own(wanting, s), s.tick, s.link.number()))
        }),
        ("the higher of the own step's", |wanting, giving| {
            let number = |s: &Setter| match i64::from(s.link.number()) {
                number if is_own(wanting, s) => -number,
                number => number,
            };
            least(giving, |s| (s.tick, !is_own(wanting, s), number(s)))
        }),
        ("the higher number of all others", |wanting, giving| {
            let number = |s: &Setter| -i64::from(s.link.number());
            least(giving, |s| (s.tick, !is_own(wanting, s), number(s)))
        }),
        ("never the own step", |wanting, giving| {
            least(giving, |s| (s.tick, is_own(wanting, s), s.link.number()))
        }),
        ("the lower step, after the own", |wanting, giving| {
            let step = |s: &Setter| s.step.unwrap_or(64);
            least(giving, |s| (s.tick, !is_own(wanting, s), step(s)))
        }),
    ]
}

fn mistaken_owners() -> Vec<Mistake> {
    vec![
        ("a goal as of the step of its number", |wanting, giving| {
            let own = |s: &Setter| s.is_of(wanting.step.unwrap_or(wanting.number));
            least(giving, |s| (s.tick, !own(s), s.link.number()))
        }),
        (
            "a condition as of the step of its number",
            |wanting, giving| {
                let own = |s: &Setter| wanting.step.is_some() && s.is_of(wanting.number);
                least(giving, |s| (s.tick, !own(s), s.link.number()))
            },
        ),
    ]
}

fn mistakes_about_the_clock() -> Vec<Mistake> {
    vec![
        ("the clock before other steps", |wanting, giving| {
            let not_first = |s: &Setter| !is_own(wanting, s) && s.step.is_some();
            least(giving, |s| (s.tick, not_first(s), s.link.number()))
        }),
        ("whoever has no step as a goal's own", |wanting, giving| {
            let own = |s: &Setter| s.step == wanting.step;
            least(giving, |s| (s.tick, !own(s), s.link.number()))
        }),
        ("the clock as step 0", |wanting, giving| {
            let own = |s: &Setter| wanting.step == Some(s.step.unwrap_or(0));
            least(giving, |s| (s.tick, !own(s), s.link.number()))
        }),
    ]
}

fn mistakes_of(edition: u16) -> Vec<Mistake> {
    let mut mistakes = [mistaken_choices(), mistaken_owners()].concat();
    if edition > 1 {
        mistakes.extend(mistakes_about_the_clock());
    }
    mistakes
}

/// The links of a sound job by a rule.
fn links_by(rule: Rule, job: &Job) -> Vec<Link> {
    let starts = job.written_starts();
    let conditions = job.conditions.iter().enumerate().map(|(number, c)| {
        let step = Some(c.step);
        let giving = giving(job, c.fact, c.wanted, c.first_tick(&starts));
        rule(&Wanting { step, number }, &giving)
    });
    let goals = job.goals.iter().enumerate().map(|(number, g)| {
        let giving = giving(job, g.fact, g.value, i64::MAX);
        rule(&Wanting { step: None, number }, &giving)
    });
    conditions.chain(goals).collect()
}

/// The initial state gives its values before all ticks.
fn giving(job: &Job, fact: usize, wanted: u16, first: i64) -> Vec<Setter> {
    let initial_state = Setter {
        link: Link::InitialState,
        step: None,
        fact,
        value: job.facts[fact],
        tick: -1,
    };
    let starts = job.written_starts();
    let all = || [initial_state].into_iter().chain(setters(job, &starts));
    let opposing = all().filter(|s| s.opposes(fact, wanted) && s.tick < first);
    let last = opposing.map(|s| s.tick).max();
    all()
        .filter(|s| s.gives(fact, wanted) && last.is_none_or(|last| last < s.tick))
        .collect()
}

/// The jobs to which a rule gives other links than theirs.
fn told_by<'a>(rule: Rule, jobs: &'a [(&str, Job, Vec<Link>)]) -> impl Iterator<Item = &'a str> {
    let told = jobs
        .iter()
        .filter(move |(_, job, links)| links_by(rule, job) != *links);
    told.map(|(name, _, _)| *name)
}

fn with_links<'a>(
    jobs: impl IntoIterator<Item = (&'a str, Job)>,
) -> Vec<(&'a str, Job, Vec<Link>)> {
    let jobs = jobs.into_iter();
    jobs.map(|(name, job)| (name, job.clone(), loosened(&job).links))
        .collect()
}

#[test]
fn each_job_by_hand_tells_a_mistake_and_each_mistake_is_told() {
    let jobs = [ties(), timed_ties(), largest_ties(), largest_timed_ties()].concat();
    let jobs = with_links(jobs);
    assert_eq!(told_by(right, &jobs).next(), None);
    let mut telling = BTreeSet::new();
    for (mistake, rule) in mistakes_of(2) {
        let told: Vec<&str> = told_by(rule, &jobs).collect();
        assert!(!told.is_empty(), "no job tells: {mistake}");
        telling.extend(told);
    }
    for (name, _, _) in &jobs {
        assert!(telling.contains(name), "{name} tells no mistake");
    }
}

#[test]
fn made_jobs_tell_each_mistake() {
    let mut random = Random::seeded(13);
    for edition in [1, 2] {
        let jobs = (0..5_000).map(|_| ("made", some_sound_job(&mut random, edition)));
        let jobs = with_links(jobs);
        assert_eq!(told_by(right, &jobs).next(), None);
        for (mistake, rule) in mistakes_of(edition) {
            let told = told_by(rule, &jobs).count();
            assert!(told >= 50, "{told}: {mistake}");
        }
        // Two of a hundred.
        assert!(told_by(by_the_lower_number_alone, &jobs).count() >= 100);
    }
}

/// Whom a tie goes to changes the orders, not what they promise.
#[test]
fn choices_that_obey_the_files_are_sound_and_end_alike() {
    let mut random = Random::seeded(5);
    let mut tried = Tried::default();
    for (_, job) in [ties(), timed_ties()].concat() {
        for _ in 0..5 {
            try_anywhere(&job, &mut random, &mut tried).unwrap_or_else(|broken| panic!("{broken}"));
        }
    }
    assert_eq!(tried.choices, 28 * 5 * 60);
}
