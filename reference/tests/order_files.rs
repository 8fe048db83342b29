//! The order file's reader and the alike test.

use reference::make::order_files::*;
use reference::order_file::{
    alike, read, read_header, read_record, Link, Order, OrderFile, Record,
};
use reference::random::Random;
use reference::refusal::Refusal;

const BROKEN: Refusal = Refusal {
    number: 16,
    place: 0,
};

#[test]
fn what_is_written_reads_back() {
    let mut random = Random::seeded(1);
    for edition in [1, 2, 3] {
        for _ in 0..2_000 {
            let file = some_good_file(&mut random, edition);
            assert_eq!(read(&file.to_file()), Ok(file));
        }
    }
    for file in files_at_the_limits() {
        assert_eq!(read(&file.to_file()), Ok(file));
    }
    assert_eq!(read(&highest_file().to_file()), Ok(highest_file()));
}

#[test]
fn the_highest_file_has_the_highest_counts() {
    let header = read_header(&highest_file().to_file());
    let expected = [1, 64, 4_032, 544, 64, 24, 792, 33_048];
    assert_eq!(header, Ok(expected));
}

#[test]
fn each_clause_alone_is_refused() {
    for (clause, file) in broken_files() {
        assert_eq!(read_header(&file), Err(BROKEN), "{clause}");
        assert_eq!(read_record(&file, 0, 0), Err(BROKEN), "{clause}");
    }
    for file in too_many_orders() {
        assert_eq!(read_header(&file), Err(BROKEN));
    }
}

#[test]
fn records_that_are_there_and_not_there() {
    let file = plain_file();
    let bytes = file.to_file();
    for (number, &window) in file.windows.iter().enumerate() {
        let record = read_record(&bytes, 0, number as u32);
        assert_eq!(record, Ok(Record::Window(window)));
    }
    let order = Order {
        first: 2,
        second: 0,
        gap: -99,
    };
    assert_eq!(read_record(&bytes, 1, 3), Ok(Record::Order(order)));
    let link = Link::InitialState;
    assert_eq!(read_record(&bytes, 2, 1), Ok(Record::Link(link)));
    for (table, number) in [(0, 4), (1, 5), (2, 4), (3, 0), (0, 65_536), (u32::MAX, 0)] {
        assert_eq!(read_record(&bytes, table, number), Err(BROKEN));
    }
}

#[test]
fn alike_looks_at_steps_limits_latest_starts_and_orders() {
    let plain = plain_file().to_file();
    for other in unlike_files() {
        assert_eq!(alike(&plain, &other.to_file()), Ok(false));
        assert_eq!(alike(&other.to_file(), &plain), Ok(false));
    }
    for other in alike_files() {
        assert_eq!(alike(&plain, &other.to_file()), Ok(true));
        assert_eq!(alike(&other.to_file(), &plain), Ok(true));
    }
}

#[test]
fn the_alike_test_names_the_first_broken_file() {
    let plain = plain_file().to_file();
    let second = Refusal {
        number: 16,
        place: 1,
    };
    for (_, file) in broken_files() {
        assert_eq!(alike(&file, &plain), Err(BROKEN));
        assert_eq!(alike(&plain, &file), Err(second));
        assert_eq!(alike(&file, &file), Err(BROKEN));
    }
}

/// 511 is the highest link to an effect, 575 to a timed fact; 65,535 is the initial state.
#[test]
fn links_up_to_those_to_timed_facts_are_read() {
    let link = |number: u16| {
        let file = OrderFile {
            links: vec![Link::of_number(number)],
            ..OrderFile::default()
        };
        read_record(&file.to_file(), 2, 0)
    };
    let found = |link| Ok(Record::Link(link));
    assert_eq!(link(511), found(Link::Effect(511)));
    assert_eq!(link(512), found(Link::Timed(0)));
    assert_eq!(link(575), found(Link::Timed(63)));
    assert_eq!(link(576), Err(BROKEN));
    assert_eq!(link(65_534), Err(BROKEN));
    assert_eq!(link(65_535), found(Link::InitialState));
    for file in files_with_timed_links() {
        assert_eq!(read(&file.to_file()), Ok(file));
    }
}

#[test]
fn links_to_timed_facts_do_not_matter_to_the_alike_test() {
    let plain = plain_file();
    for other in files_with_timed_links().iter().take(4) {
        assert_eq!(alike(&plain.to_file(), &other.to_file()), Ok(true));
    }
}

#[test]
fn obeying_is_limits_latest_starts_and_orders() {
    let order = |first, second, gap| Order { first, second, gap };
    let file = OrderFile {
        orders: vec![order(0, 1, 6), order(1, 0, -9)],
        windows: plain_file().windows[..2].to_vec(),
        ..OrderFile::default()
    };
    assert!(file.obeyed_by(&[4, 10]));
    assert!(file.obeyed_by(&[34, 40]));
    assert!(!file.obeyed_by(&[3, 9]));
    assert!(!file.obeyed_by(&[35, 41]));
    assert!(!file.obeyed_by(&[5, 10]));
    assert!(!file.obeyed_by(&[0, 10]));
    assert!(!file.obeyed_by(&[10]));
}
