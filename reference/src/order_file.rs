//! The order file: writing it, reading it, what obeys it, and which two are alike.

use crate::bytes::{i32_at, put_i32, put_u16, put_u32, u16_at, u32_at};
use crate::refusal::Refusal;

pub const EDITION: u16 = 1;
pub const HEADER: usize = 24;
pub const WINDOW: usize = 12;
pub const ORDER: usize = 8;
pub const LINK: usize = 2;

pub const MOST_STEPS: usize = 64;
pub const MOST_ORDERS: usize = 4_032;
pub const MOST_LINKS: usize = 544;

/// The latest start that is none, and the link to the initial state.
pub const NONE: u32 = 4_294_967_295;
pub const INITIAL_STATE: u16 = 65_535;

/// Links to effects are their numbers; a link to a timed fact is this plus its number.
pub const FIRST_TIMED: u16 = 512;

/// The highest link that is not to the initial state, in every order file.
pub const HIGHEST_LINK: u16 = 575;

#[derive(Clone, Debug, Default, PartialEq, Eq)]
pub struct OrderFile {
    pub rounds: usize,
    pub windows: Vec<Window>,
    pub orders: Vec<Order>,
    pub links: Vec<Link>,
}

#[derive(Clone, Copy, Debug, PartialEq, Eq)]
pub struct Window {
    pub limit: i64,
    pub latest: Option<i64>,
    pub earliest: i64,
}

/// Start of second ≥ start of first + gap.
#[derive(Clone, Copy, Debug, PartialEq, Eq)]
pub struct Order {
    pub first: usize,
    pub second: usize,
    pub gap: i64,
}

#[derive(Clone, Copy, Debug, PartialEq, Eq)]
pub enum Link {
    InitialState,
    Effect(usize),
    Timed(usize),
}

impl OrderFile {
    pub fn to_file(&self) -> Vec<u8> {
        let windows_at = HEADER;
        let orders_at = windows_at + self.windows.len() * WINDOW;
        let links_at = orders_at + self.orders.len() * ORDER;
        let mut file = Vec::new();
        put_u16(&mut file, EDITION);
        put_u16(&mut file, self.windows.len());
        put_u16(&mut file, self.orders.len());
        put_u16(&mut file, self.links.len());
        put_u32(&mut file, self.rounds);
        put_u32(&mut file, windows_at);
        put_u32(&mut file, orders_at);
        put_u32(&mut file, links_at);
        for window in &self.windows {
            put_u32(&mut file, window.limit);
            put_u32(&mut file, window.latest.unwrap_or(i64::from(NONE)));
            put_u32(&mut file, window.earliest);
        }
        for order in &self.orders {
            put_u16(&mut file, order.first);
            put_u16(&mut file, order.second);
            put_i32(&mut file, order.gap);
        }
        for link in &self.links {
            put_u16(&mut file, link.number());
        }
        file
    }

    /// Every start is at least its limit and at most its latest start, and every order holds.
    pub fn obeyed_by(&self, starts: &[i64]) -> bool {
        let within = |(window, &start): (&Window, &i64)| {
            window.limit <= start && window.latest.is_none_or(|latest| start <= latest)
        };
        let holds = |order: &Order| starts[order.second] >= starts[order.first] + order.gap;
        starts.len() == self.windows.len()
            && self.windows.iter().zip(starts).all(within)
            && self.orders.iter().all(holds)
    }

    pub fn earliest_times(&self) -> Vec<i64> {
        self.windows.iter().map(|window| window.earliest).collect()
    }
}

impl Link {
    pub fn number(&self) -> u16 {
        match self {
            Link::InitialState => INITIAL_STATE,
            Link::Effect(number) => u16::try_from(*number).expect("an effect number fits"),
            Link::Timed(number) => {
                FIRST_TIMED + u16::try_from(*number).expect("a timed fact's number fits")
            }
        }
    }

    pub fn of_number(number: u16) -> Link {
        match number {
            INITIAL_STATE => Link::InitialState,
            0..FIRST_TIMED => Link::Effect(usize::from(number)),
            _ => Link::Timed(usize::from(number - FIRST_TIMED)),
        }
    }
}

// ---------------------------------------------------------------------------------------------
// The reader

/// The header's numbers: edition, steps, orders, links, rounds, offsets of windows, orders, links.
pub type Header = [u32; 8];

#[derive(Clone, Copy, Debug, PartialEq, Eq)]
pub enum Record {
    Window(Window),
    Order(Order),
    Link(Link),
}

pub const WINDOWS_TABLE: u32 = 0;
pub const ORDERS_TABLE: u32 = 1;
pub const LINKS_TABLE: u32 = 2;

pub fn read_header(file: &[u8]) -> Result<Header, Refusal> {
    if breaks_its_rules(file) {
        return Err(Refusal::at(16, 0));
    }
    Ok(header(file))
}

pub fn read_record(file: &[u8], table: u32, number: u32) -> Result<Record, Refusal> {
    let contents = read(file)?;
    let number = number as usize;
    let record = match table {
        WINDOWS_TABLE => contents.windows.get(number).copied().map(Record::Window),
        ORDERS_TABLE => contents.orders.get(number).copied().map(Record::Order),
        LINKS_TABLE => contents.links.get(number).copied().map(Record::Link),
        _ => None,
    };
    record.ok_or(Refusal::at(16, 0))
}

/// The whole contents of an order file.
pub fn read(file: &[u8]) -> Result<OrderFile, Refusal> {
    if breaks_its_rules(file) {
        return Err(Refusal::at(16, 0));
    }
    Ok(contents(file))
}

fn header(file: &[u8]) -> Header {
    [
        u32::from(u16_at(file, 0)),
        u32::from(u16_at(file, 2)),
        u32::from(u16_at(file, 4)),
        u32::from(u16_at(file, 6)),
        u32_at(file, 8),
        u32_at(file, 12),
        u32_at(file, 16),
        u32_at(file, 20),
    ]
}

/// The tables of a file whose layout holds.
fn contents(file: &[u8]) -> OrderFile {
    let [_, steps, orders, links, rounds, windows_at, orders_at, links_at] =
        header(file).map(|number| number as usize);
    let ticks = |at: usize| i64::from(u32_at(file, at));
    OrderFile {
        rounds,
        windows: (0..steps)
            .map(|number| windows_at + number * WINDOW)
            .map(|at| Window {
                limit: ticks(at),
                latest: (u32_at(file, at + 4) != NONE).then_some(ticks(at + 4)),
                earliest: ticks(at + 8),
            })
            .collect(),
        orders: (0..orders)
            .map(|number| orders_at + number * ORDER)
            .map(|at| Order {
                first: usize::from(u16_at(file, at)),
                second: usize::from(u16_at(file, at + 2)),
                gap: i64::from(i32_at(file, at + 4)),
            })
            .collect(),
        links: (0..links)
            .map(|number| Link::of_number(u16_at(file, links_at + number * LINK)))
            .collect(),
    }
}

// ---------------------------------------------------------------------------------------------
// Refusal 16, clause by clause

fn breaks_its_rules(file: &[u8]) -> bool {
    if breaks_its_layout(file) {
        return true;
    }
    let file = contents(file);
    has_too_many(&file)
        || names_a_step_not_counted(&file)
        || orders_a_step_after_itself(&file)
        || has_a_gap_out_of_range(&file)
        || has_orders_out_of_sequence(&file)
        || has_a_link_out_of_range(&file)
        || has_more_rounds_than_steps(&file)
        || has_an_earliest_time_outside_its_window(&file)
}

/// The edition, the offsets, and a length that is that of the tables.
fn breaks_its_layout(file: &[u8]) -> bool {
    if file.len() < HEADER {
        return true;
    }
    let [edition, steps, orders, links, _, windows_at, orders_at, links_at] =
        header(file).map(|number| number as usize);
    edition != usize::from(EDITION)
        || windows_at != HEADER
        || orders_at != HEADER + steps * WINDOW
        || links_at != HEADER + steps * WINDOW + orders * ORDER
        || file.len() != HEADER + steps * WINDOW + orders * ORDER + links * LINK
}

fn has_too_many(file: &OrderFile) -> bool {
    file.windows.len() > MOST_STEPS
        || file.orders.len() > MOST_ORDERS
        || file.links.len() > MOST_LINKS
}

fn names_a_step_not_counted(file: &OrderFile) -> bool {
    let steps = file.windows.len();
    file.orders
        .iter()
        .any(|o| o.first >= steps || o.second >= steps)
}

fn orders_a_step_after_itself(file: &OrderFile) -> bool {
    file.orders.iter().any(|o| o.first == o.second)
}

fn has_a_gap_out_of_range(file: &OrderFile) -> bool {
    let in_range = |order: &Order| (-99_999..=100_001).contains(&order.gap);
    !file.orders.iter().all(in_range)
}

/// Ascending by first, then second; no pair comes twice.
fn has_orders_out_of_sequence(file: &OrderFile) -> bool {
    let pair = |order: &Order| (order.first, order.second);
    let neighbours = file.orders.windows(2);
    neighbours
        .into_iter()
        .any(|two| pair(&two[0]) >= pair(&two[1]))
}

fn has_a_link_out_of_range(file: &OrderFile) -> bool {
    let mut numbers = file.links.iter().map(Link::number);
    numbers.any(|number| number != INITIAL_STATE && number > HIGHEST_LINK)
}

fn has_more_rounds_than_steps(file: &OrderFile) -> bool {
    file.rounds > file.windows.len()
}

fn has_an_earliest_time_outside_its_window(file: &OrderFile) -> bool {
    let outside = |window: &Window| {
        window.earliest < window.limit || window.latest.is_some_and(|last| last < window.earliest)
    };
    file.windows.iter().any(outside)
}

// ---------------------------------------------------------------------------------------------
// The alike test

/// Whether steps, limits, latest starts and orders are equal.
pub fn alike(a: &[u8], b: &[u8]) -> Result<bool, Refusal> {
    let a = read(a).map_err(|_| Refusal::at(16, 0))?;
    let b = read(b).map_err(|_| Refusal::at(16, 1))?;
    let bounds = |file: &OrderFile| -> Vec<(i64, Option<i64>)> {
        let windows = file.windows.iter();
        windows
            .map(|window| (window.limit, window.latest))
            .collect()
    };
    Ok(bounds(&a) == bounds(&b) && a.orders == b.orders)
}
