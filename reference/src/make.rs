//! Made jobs, made timings and made order files: the same for the same seed.

/// Jobs with the names of the functions that make them.
macro_rules! by_name {
    ($($name:ident),* $(,)?) => {
        vec![$((stringify!($name), $name())),*]
    };
}

pub mod bench_jobs;
pub mod checking_order;
pub mod crowded;
pub mod damage;
pub mod edges;
pub mod highest;
pub mod marked;
pub mod near_miss;
pub mod need_edges;
pub mod need_nudges;
pub mod need_telling;
pub mod need_timings;
pub mod order_files;
pub mod own_conflicts;
pub mod pairs;
pub mod pddl;
pub mod ranges;
pub mod scribbled;
pub mod sound;
pub mod telling;
pub mod ties;
pub mod timed_edges;
pub mod timed_nudges;
pub mod timed_telling;
pub mod timed_timings;
pub mod timings;
