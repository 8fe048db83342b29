//! What program `show` prints of a job.

use crate::bytes::u16_at;
use crate::job::SERIAL_AT;
use crate::loosen::order_file_of;
use crate::order_file::OrderFile;

pub fn show(job: &[u8]) -> String {
    match order_file_of(job) {
        Ok(file) => mark_line(job).to_string() + &sheet(&file),
        Err(refusal) => format!("refused {} place {}\n", refusal.number, refusal.place),
    }
}

/// What comes before an accepted job's first line.
fn mark_line(job: &[u8]) -> &'static str {
    match u16_at(job, SERIAL_AT) {
        0 => "",
        _ => "serial mark ignored\n",
    }
}

/// Header first, then windows, then orders.
fn sheet(file: &OrderFile) -> String {
    let mut text = format!("steps {} rounds {}\n", file.windows.len(), file.rounds);
    for (step, window) in file.windows.iter().enumerate() {
        let latest = match window.latest {
            Some(tick) => tick.to_string(),
            None => "none".to_string(),
        };
        let earliest = window.earliest;
        text += &format!("step {step} earliest {earliest} latest {latest}\n");
    }
    for order in &file.orders {
        text += &format!("order {} {} {}\n", order.first, order.second, order.gap);
    }
    text
}
