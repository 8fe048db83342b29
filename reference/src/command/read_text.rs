//! An order file as text: its header, then a line a window, an order and a link.

use crate::order_file::{Link, OrderFile};

pub fn text_of(file: &OrderFile) -> String {
    header(file) + &windows(file) + &orders(file) + &links(file)
}

fn header(file: &OrderFile) -> String {
    format!(
        "steps {} orders {} links {} rounds {}\n",
        file.windows.len(),
        file.orders.len(),
        file.links.len(),
        file.rounds
    )
}

fn windows(file: &OrderFile) -> String {
    let mut text = String::new();
    for (step, window) in file.windows.iter().enumerate() {
        let latest = match window.latest {
            Some(tick) => tick.to_string(),
            None => "none".to_string(),
        };
        let (limit, earliest) = (window.limit, window.earliest);
        text += &format!("step {step} limit {limit} latest {latest} earliest {earliest}\n");
    }
    text
}

fn orders(file: &OrderFile) -> String {
    let orders = file.orders.iter();
    orders
        .map(|order| format!("order {} {} {}\n", order.first, order.second, order.gap))
        .collect()
}

fn links(file: &OrderFile) -> String {
    let links = file.links.iter().enumerate();
    links
        .map(|(number, link)| format!("link {number} {}\n", supporter(link)))
        .collect()
}

fn supporter(link: &Link) -> String {
    match link {
        Link::InitialState => "initial state".to_string(),
        Link::Effect(number) => format!("effect {number}"),
        Link::Timed(number) => format!("timed fact {number}"),
    }
}
