//! Order files: good ones at every limit, and files broken in every way that refusal 16 names.

use crate::make::sound::small_sound_job;
use crate::order_file::{
    Link, Order, OrderFile, Window, FIRST_TIMED, HIGHEST_LINK, MOST_LINKS, MOST_STEPS,
};
use crate::orders::orders_of;
use crate::random::Random;

const GAPS: (i64, i64) = (-99_999, 100_001);
const LAST: i64 = 4_294_967_295;

// ---------------------------------------------------------------------------------------------
// Good files

/// A file with something in every table, for damage to have something to hit.
pub fn plain_file() -> OrderFile {
    let window = |limit, latest, earliest| Window {
        limit,
        latest,
        earliest,
    };
    let order = |first, second, gap| Order { first, second, gap };
    OrderFile {
        rounds: 3,
        windows: vec![
            window(0, None, 0),
            window(10, Some(40), 12),
            window(0, Some(90), 20),
            window(7, Some(7), 7),
        ],
        orders: vec![
            order(0, 1, 6),
            order(0, 3, -2),
            order(1, 2, 8),
            order(2, 0, -99),
            order(3, 1, 5),
        ],
        links: vec![
            Link::Effect(0),
            Link::InitialState,
            Link::Effect(511),
            Link::Effect(3),
        ],
    }
}

/// A file of the reader's own kind: it need not come from any job. Its links are those of jobs up
/// to this edition.
pub fn some_file(random: &mut Random, edition: u16) -> OrderFile {
    let steps = random.below(6);
    let mut orders = Vec::new();
    for first in 0..steps {
        for second in 0..steps {
            if first != second && random.chance(40) {
                let near = random.between(-9, 9);
                let gap = random.pick(&[near, near, near, GAPS.0, GAPS.1]);
                orders.push(Order { first, second, gap });
            }
        }
    }
    OrderFile {
        rounds: random.below(steps + 1),
        windows: (0..steps).map(|_| some_window(random)).collect(),
        orders,
        links: (0..random.below(6))
            .map(|_| some_link(random, edition))
            .collect(),
    }
}

fn some_window(random: &mut Random) -> Window {
    let limit = random.pick(&[0, 0, 5, 1_000_000]);
    let earliest = limit + random.pick(&[0, 0, 3, 70_000]);
    let latest = earliest + random.pick(&[0, 1, 500]);
    Window {
        limit,
        latest: random.chance(60).then_some(latest),
        earliest,
    }
}

fn some_link(random: &mut Random, edition: u16) -> Link {
    match random.below(3) {
        0 => Link::InitialState,
        1 if edition == 1 || random.chance(50) => Link::Effect(random.below(4)),
        1 => Link::Timed(random.below(64)),
        _ => {
            let links = if edition == 1 {
                FIRST_TIMED
            } else {
                HIGHEST_LINK + 1
            };
            Link::of_number(random.below(usize::from(links)) as u16)
        }
    }
}

/// A file as loosening writes it.
pub fn written_file(random: &mut Random, edition: u16) -> OrderFile {
    orders_of(&small_sound_job(random, edition))
}

/// 64 steps, 4,032 orders and 544 links.
pub fn highest_file() -> OrderFile {
    let mut file = OrderFile {
        rounds: MOST_STEPS,
        ..OrderFile::default()
    };
    for first in 0..MOST_STEPS {
        file.windows.push(Window {
            limit: first as i64,
            latest: (first % 2 == 0).then_some(LAST - 1),
            earliest: 1_000 + first as i64,
        });
        for second in (0..MOST_STEPS).filter(|&second| second != first) {
            let gap = 3 * second as i64 - 5 * first as i64;
            file.orders.push(Order { first, second, gap });
        }
    }
    file.links = (0..MOST_LINKS)
        .map(|number| match number % 5 {
            0 => Link::InitialState,
            _ => Link::Effect(number % 512),
        })
        .collect();
    file
}

/// Files with links to timed facts.
pub fn files_with_timed_links() -> Vec<OrderFile> {
    let mut files = [0, 1, 63]
        .map(|number| changed(|file| file.links[1] = Link::Timed(number)))
        .to_vec();
    files.push(changed(|file| file.links[0] = Link::Timed(63)));
    files.push(OrderFile {
        links: vec![Link::Timed(9), Link::InitialState, Link::Effect(511)],
        ..OrderFile::default()
    });
    files.push(OrderFile {
        links: vec![Link::Timed(63); MOST_LINKS],
        ..OrderFile::default()
    });
    files
}

/// Files at each limit that refusal 16 draws, all good.
pub fn files_at_the_limits() -> Vec<OrderFile> {
    let mut files = vec![OrderFile::default(), plain_file()];
    files.extend([GAPS.0, GAPS.1, 0].map(|gap| changed(|file| file.orders[1].gap = gap)));
    files.extend([0, 511].map(|number| changed(|file| file.links[1] = Link::Effect(number))));
    files.extend([0, 1, 4].map(|rounds| changed(|file| file.rounds = rounds)));
    files.extend(
        [
            (0, None, LAST),
            (LAST, None, LAST),
            (LAST - 1, Some(LAST - 1), LAST - 1),
            (0, Some(0), 0),
            (5, Some(9), 5),
            (5, Some(9), 9),
            (5, Some(1 << 31), 1 << 31),
        ]
        .map(with_last_window),
    );
    files.push(changed(|file| file.orders.clear()));
    files.push(changed(|file| file.links.clear()));
    files.push(OrderFile {
        links: vec![Link::Effect(9); 3],
        ..OrderFile::default()
    });
    files.push(OrderFile {
        windows: vec![plain_file().windows[1]; MOST_STEPS],
        ..OrderFile::default()
    });
    files.push(OrderFile {
        links: vec![Link::InitialState; MOST_LINKS],
        ..OrderFile::default()
    });
    files
}

fn changed(change: impl Fn(&mut OrderFile)) -> OrderFile {
    let mut file = plain_file();
    change(&mut file);
    file
}

fn with_last_window((limit, latest, earliest): (i64, Option<i64>, i64)) -> OrderFile {
    changed(|file| {
        file.windows[3] = Window {
            limit,
            latest,
            earliest,
        }
    })
}

// ---------------------------------------------------------------------------------------------
// Files that refusal 16 names, each clause alone

pub fn broken_files() -> Vec<(&'static str, Vec<u8>)> {
    let mut files = Vec::new();
    let mut add = |clause, broken: Vec<Vec<u8>>| {
        files.extend(broken.into_iter().map(|file| (clause, file)));
    };
    add("shorter than its header", short_files());
    add("edition", editions());
    add("offsets", offsets());
    add("longer or shorter than its tables", lengths());
    add("over 64 steps", to_files(vec![too_many_steps()]));
    add("over 544 links", to_files(vec![too_many_links()]));
    add("a step not counted", to_files(steps_not_counted()));
    add("first equal to second", to_files(steps_after_themselves()));
    add("gap out of range", to_files(gaps_out_of_range()));
    add("out of sequence", to_files(orders_out_of_sequence()));
    add("pair of another", to_files(pairs_of_another()));
    add("link out of range", to_files(links_out_of_range()));
    add("rounds above the steps", rounds_above_the_steps());
    add("earliest under its limit", to_files(earliest_under_limit()));
    add("earliest over its latest", to_files(earliest_over_latest()));
    files
}

/// 4,033 orders cannot be the only fault: 64 steps have no more than 4,032 pairs. Here the last
/// pair comes twice, or a 65th step makes room.
pub fn too_many_orders() -> Vec<Vec<u8>> {
    let mut twice = highest_file();
    twice.orders.push(*twice.orders.last().expect("orders"));
    let mut wider = highest_file();
    wider.windows.push(wider.windows[0]);
    wider.orders.push(Order {
        first: 64,
        second: 0,
        gap: 1,
    });
    to_files(vec![twice, wider])
}

fn to_files(files: Vec<OrderFile>) -> Vec<Vec<u8>> {
    files.iter().map(OrderFile::to_file).collect()
}

fn patched(at: usize, bytes: &[u8]) -> Vec<u8> {
    patch(&plain_file(), at, bytes)
}

fn patch(file: &OrderFile, at: usize, bytes: &[u8]) -> Vec<u8> {
    let mut file = file.to_file();
    file[at..at + bytes.len()].copy_from_slice(bytes);
    file
}

fn short_files() -> Vec<Vec<u8>> {
    let whole = plain_file().to_file();
    let empty = OrderFile::default().to_file();
    let mut files: Vec<Vec<u8>> = [0, 1, 2, 8, 12, 23].map(|n| whole[..n].to_vec()).to_vec();
    files.push(empty[..23].to_vec());
    files
}

fn editions() -> Vec<Vec<u8>> {
    let editions: [u16; 4] = [0, 2, 257, 65_535];
    editions
        .map(|edition| patched(0, &edition.to_le_bytes()))
        .to_vec()
}

fn offsets() -> Vec<Vec<u8>> {
    let mut files = Vec::new();
    for (at, offset) in [(12, 24), (16, 72), (20, 112)] {
        let wrong = wrong_offsets(offset);
        files.extend(wrong.map(|number| patched(at, &number.to_le_bytes())));
    }
    files.extend(offsets_of_empty_tables());
    files
}

/// A table without records has its offset too.
fn offsets_of_empty_tables() -> Vec<Vec<u8>> {
    let no_links = changed(|file| file.links.clear());
    let no_orders = changed(|file| file.orders.clear());
    let empty = OrderFile::default();
    let mut files = Vec::new();
    for (file, at, offset) in [
        (&no_links, 20, 112),
        (&no_orders, 16, 72),
        (&empty, 12, 24),
        (&empty, 16, 24),
        (&empty, 20, 24),
    ] {
        let wrong = wrong_offsets(offset);
        files.extend(wrong.map(|number| patch(file, at, &number.to_le_bytes())));
    }
    files
}

fn wrong_offsets(offset: u32) -> [u32; 6] {
    [
        offset + 1,
        offset - 1,
        0,
        offset + 65_536,
        offset + 0x8000_0000,
        u32::MAX,
    ]
}

/// Bytes too many or too few, and counts that the tables do not bear out.
fn lengths() -> Vec<Vec<u8>> {
    let whole = plain_file().to_file();
    let mut files = vec![
        whole[..whole.len() - 1].to_vec(),
        whole[..whole.len() - 2].to_vec(),
        whole[..24].to_vec(),
        [&whole[..], &[0]].concat(),
        [&whole[..], &[0, 0]].concat(),
        [&OrderFile::default().to_file()[..], &[0]].concat(),
    ];
    for (at, count) in [(2, 4u16), (4, 5), (6, 4)] {
        let wrong = [count + 1, count - 1, 0, count + 256, 65_535];
        files.extend(wrong.map(|number| patched(at, &number.to_le_bytes())));
    }
    files
}

fn too_many_steps() -> OrderFile {
    OrderFile {
        windows: vec![plain_file().windows[1]; MOST_STEPS + 1],
        ..OrderFile::default()
    }
}

fn too_many_links() -> OrderFile {
    OrderFile {
        links: vec![Link::InitialState; MOST_LINKS + 1],
        ..OrderFile::default()
    }
}

fn steps_not_counted() -> Vec<OrderFile> {
    vec![
        changed(|file| file.orders[4].first = 4),
        changed(|file| file.orders[4].first = 65_535),
        changed(|file| file.orders[4].second = 4),
        changed(|file| file.orders[1].second = 4),
        changed(|file| file.orders[4].second = 65_535),
    ]
}

fn steps_after_themselves() -> Vec<OrderFile> {
    vec![
        changed(|file| file.orders[0].second = 0),
        changed(|file| file.orders[2].second = 1),
        changed(|file| file.orders[4].second = 3),
    ]
}

fn gaps_out_of_range() -> Vec<OrderFile> {
    let gaps = [
        GAPS.0 - 1,
        GAPS.1 + 1,
        i64::from(i32::MIN),
        i64::from(i32::MAX),
    ];
    let mut files = gaps
        .map(|gap| changed(|file| file.orders[4].gap = gap))
        .to_vec();
    files.extend(gaps.map(|gap| changed(|file| file.orders[0].gap = gap)));
    files
}

/// By first, then second: also a file that would be in sequence by second first.
fn orders_out_of_sequence() -> Vec<OrderFile> {
    vec![
        changed(|file| file.orders.swap(0, 1)),
        changed(|file| file.orders.swap(1, 2)),
        changed(|file| file.orders.swap(3, 4)),
        changed(|file| file.orders.swap(0, 4)),
        changed(|file| file.orders.sort_by_key(|order| (order.second, order.first))),
        changed(|file| file.orders.reverse()),
    ]
}

fn pairs_of_another() -> Vec<OrderFile> {
    vec![
        changed(|file| file.orders.push(file.orders[4])),
        changed(|file| {
            let again = Order {
                gap: 9,
                ..file.orders[4]
            };
            file.orders.push(again);
        }),
        changed(|file| file.orders.insert(0, file.orders[0])),
    ]
}

fn links_out_of_range() -> Vec<OrderFile> {
    let numbers = [HIGHEST_LINK + 1, HIGHEST_LINK + 2, 32_768, 65_534];
    let mut files = numbers
        .map(|number| changed(|file| file.links[3] = Link::of_number(number)))
        .to_vec();
    let next = Link::of_number(HIGHEST_LINK + 1);
    files.push(changed(|file| file.links[0] = next));
    files
}

fn rounds_above_the_steps() -> Vec<Vec<u8>> {
    let mut files = vec![
        patched(8, &5u32.to_le_bytes()),
        patched(8, &65_536u32.to_le_bytes()),
        patched(8, &u32::MAX.to_le_bytes()),
    ];
    let empty = OrderFile {
        rounds: 1,
        ..OrderFile::default()
    };
    files.push(empty.to_file());
    files
}

fn earliest_under_limit() -> Vec<OrderFile> {
    vec![
        changed(|file| file.windows[1].earliest = 9),
        changed(|file| file.windows[3] = window_of(8, None, 7)),
        changed(|file| file.windows[0] = window_of(LAST, None, 0)),
        changed(|file| file.windows[3] = window_of(1 << 31, None, 1)),
    ]
}

fn earliest_over_latest() -> Vec<OrderFile> {
    vec![
        changed(|file| file.windows[1].earliest = 41),
        changed(|file| file.windows[3] = window_of(0, Some(6), 7)),
        changed(|file| file.windows[0] = window_of(0, Some(LAST - 1), LAST)),
        changed(|file| file.windows[3] = window_of(0, Some(7), 1 << 31)),
    ]
}

fn window_of(limit: i64, latest: Option<i64>, earliest: i64) -> Window {
    Window {
        limit,
        latest,
        earliest,
    }
}

// ---------------------------------------------------------------------------------------------
// Anywhere

/// One byte of a good file changed, or its end cut or grown.
pub fn damaged_file(random: &mut Random, edition: u16) -> Vec<u8> {
    let mut file = some_good_file(random, edition).to_file();
    match random.below(8) {
        0 => file.push(0),
        1 => file.truncate(random.below(file.len())),
        _ => {
            let end = random.pick(&[24, file.len()]);
            let at = random.below(end);
            file[at] = random.pick(&[0, 1, 2, 255, file[at] ^ 1, file[at].wrapping_add(1)]);
        }
    }
    file
}

pub fn some_good_file(random: &mut Random, edition: u16) -> OrderFile {
    match random.below(2) {
        0 => written_file(random, edition),
        _ => some_file(random, edition),
    }
}

/// Each byte in turn, turned over.
pub fn each_byte() -> Vec<Vec<u8>> {
    let whole = plain_file().to_file();
    let change = |at: usize| patched(at, &[!whole[at]]);
    (0..whole.len()).map(change).collect()
}

// ---------------------------------------------------------------------------------------------
// Pairs for the alike test

/// Files that differ from the plain one in one thing: first what the test looks at, then what it
/// passes over.
pub fn unlike_files() -> Vec<OrderFile> {
    vec![
        changed(|file| file.windows[1].limit = 11),
        changed(|file| file.windows[3].limit = 6),
        changed(|file| file.windows[0].latest = Some(5)),
        changed(|file| file.windows[2].latest = None),
        changed(|file| file.windows[2].latest = Some(91)),
        changed(|file| file.windows.push(window_of(0, None, 0))),
        changed(|file| file.orders[0].gap = 7),
        changed(|file| file.orders[4].gap = -5),
        changed(|file| file.orders[1].second = 2),
        changed(|file| file.orders[4].first = 2),
        changed(|file| file.orders.truncate(4)),
        changed(|file| file.orders = file.orders.split_off(1)),
        OrderFile::default(),
    ]
}

pub fn alike_files() -> Vec<OrderFile> {
    vec![
        plain_file(),
        changed(|file| file.rounds = 0),
        changed(|file| file.rounds = 4),
        changed(|file| file.windows[1].earliest = 10),
        changed(|file| file.windows[2].earliest = 90),
        changed(|file| file.links[0] = Link::InitialState),
        changed(|file| file.links[3] = Link::Effect(4)),
        changed(|file| file.links.clear()),
        changed(|file| file.links.push(Link::Effect(0))),
    ]
}

/// A good file with one thing changed by chance, that the test may look at or not.
pub fn slightly_changed(random: &mut Random, file: &OrderFile) -> OrderFile {
    let mut file = file.clone();
    let steps = file.windows.len();
    match random.below(8) {
        0 => file.rounds = random.below(steps + 1),
        1 => file.links.truncate(file.links.len() / 2),
        2 => file.orders.truncate(file.orders.len() / 2),
        3 if !file.orders.is_empty() => {
            let number = random.below(file.orders.len());
            file.orders[number].gap = random.between(-9, 9);
        }
        4 if steps > 0 => {
            let window = &mut file.windows[random.below(steps)];
            window.limit = (window.limit - 1).max(0);
        }
        5 if steps > 0 => file.windows[random.below(steps)].latest = None,
        6 if steps > 0 => {
            let window = &mut file.windows[random.below(steps)];
            window.latest = window.latest.map(|latest| latest + 1);
        }
        7 if steps > 0 => {
            let window = &mut file.windows[random.below(steps)];
            window.earliest = window.limit;
        }
        _ => {}
    }
    file
}
