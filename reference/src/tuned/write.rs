//! The order file, written into a buffer of its length.

use super::form::Form;
use super::limits::Limits;
use super::nearest::{bits, Nearest, FAR};
use super::rounds::earliest;
use super::sound::Links;
use crate::order_file::{EDITION, HEADER, LINK, ORDER, WINDOW};

struct Layout {
    orders: usize,
    links: usize,
    orders_at: usize,
    links_at: usize,
    end: usize,
}

fn layout(form: &Form, nearest: &Nearest) -> Layout {
    let after = &nearest.after[..form.steps.count];
    let orders = after.iter().map(|steps| steps.count_ones() as usize).sum();
    let links = form.conditions.len() + form.goals.len();
    let orders_at = HEADER + form.steps.count * WINDOW;
    let links_at = orders_at + orders * ORDER;
    Layout {
        orders,
        links,
        orders_at,
        links_at,
        end: links_at + links * LINK,
    }
}

pub fn length(form: &Form, nearest: &Nearest) -> usize {
    layout(form, nearest).end
}

pub fn write(form: &Form, links: &Links, nearest: &Nearest, limits: &Limits, out: &mut [u8]) {
    let layout = layout(form, nearest);
    let (front, link_table) = out.split_at_mut(layout.links_at);
    let (front, orders) = front.split_at_mut(layout.orders_at);
    let (header, windows) = front.split_at_mut(HEADER);
    let rounds = write_windows(form, nearest, limits, windows);
    write_header(form, &layout, rounds, header);
    write_orders(form, nearest, orders);
    for (bytes, link) in link_table.as_chunks_mut().0.iter_mut().zip(links) {
        *bytes = link.to_le_bytes();
    }
}

fn write_header(form: &Form, layout: &Layout, rounds: u32, header: &mut [u8]) {
    let counts = [form.steps.count, layout.orders, layout.links].map(|count| count as u16);
    let offsets = [HEADER, layout.orders_at, layout.links_at].map(|at| at as u32);
    header[..2].copy_from_slice(&EDITION.to_le_bytes());
    for (bytes, count) in header[2..8].chunks_exact_mut(2).zip(counts) {
        bytes.copy_from_slice(&count.to_le_bytes());
    }
    header[8..12].copy_from_slice(&rounds.to_le_bytes());
    for (bytes, offset) in header[12..].chunks_exact_mut(4).zip(offsets) {
        bytes.copy_from_slice(&offset.to_le_bytes());
    }
}

/// The number of rounds comes with the earliest times.
fn write_windows(form: &Form, nearest: &Nearest, limits: &Limits, windows: &mut [u8]) -> u32 {
    let earliest = earliest(&form.steps, nearest, &limits.earliest);
    for (step, window) in windows.chunks_exact_mut(WINDOW).enumerate() {
        window[..4].copy_from_slice(&limits.earliest[step].to_le_bytes());
        window[4..8].copy_from_slice(&limits.latest[step].to_le_bytes());
        window[8..].copy_from_slice(&earliest.times[step].to_le_bytes());
    }
    earliest.rounds
}

/// Ascending by first, then second.
fn write_orders(form: &Form, nearest: &Nearest, orders: &mut [u8]) {
    let starts = &form.steps.starts;
    let mut orders = orders.as_chunks_mut::<ORDER>().0.iter_mut();
    for (first, row) in nearest.rows[..form.steps.count].iter().enumerate() {
        for (second, order) in bits(nearest.after[first]).zip(&mut orders) {
            let gap = row[second] - FAR + 1 + starts[second] - starts[first];
            let steps = first as u64 | (second as u64) << 16;
            *order = (steps | u64::from(gap as u32) << 32).to_le_bytes();
        }
    }
}
