//! The second program: the literal meaning of every rule of document 01 and of requests a) to f)
//! of document 02, one function a rule, with made jobs and the answers expected of them.

pub mod brute;
pub mod bytes;
pub mod cases;
pub mod command;
pub mod job;
pub mod job_file;
pub mod limits;
pub mod loosen;
pub mod made;
pub mod make;
pub mod order_file;
pub mod orders;
pub mod pairs;
pub mod pddl;
pub mod random;
pub mod refusal;
pub mod samples;
pub mod setters;
pub mod show;
pub mod stored;
pub mod stored_marked;
pub mod stored_needs;
pub mod stored_pairs;
pub mod stored_texts;
pub mod stored_timed;
pub mod timing;
pub mod tuned;
pub mod well_formed;
