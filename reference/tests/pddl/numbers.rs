//! W and T.

use super::*;
use reference::pddl::numbers::{ticks, whole_number};

#[test]
fn w_has_one_to_nine_digits() {
    for (word, number) in [
        ("0", 0),
        ("7", 7),
        ("000000007", 7),
        ("999999999", 999_999_999),
    ] {
        assert_eq!(whole_number(word.as_bytes()), Some(number), "{word}");
    }
    for word in [
        "",
        "1000000000",
        "0000000000",
        "+1",
        "-1",
        "1.0",
        "1,0",
        "1e3",
        "0x1",
        "one",
        "1_0",
        "٣",
    ] {
        assert_eq!(whole_number(word.as_bytes()), None, "{word}");
    }
}

#[test]
fn t_has_one_to_six_digits_then_at_will_a_point_and_one_to_three() {
    for (word, number) in [
        ("5", 5_000),
        ("5.5", 5_500),
        ("5.05", 5_050),
        ("5.005", 5_005),
        ("5.125", 5_125),
        ("5.50", 5_500),
        ("5.500", 5_500),
        ("0.001", 1),
        ("0", 0),
        ("000005", 5_000),
        ("000005.000", 5_000),
        ("999999.999", 999_999_999),
    ] {
        assert_eq!(ticks(word.as_bytes()), Some(number), "{word}");
    }
    for word in [
        "",
        "5.1234",
        "5.0000",
        "1234567",
        "0000005",
        ".5",
        "5.",
        ".",
        "5..5",
        "5.5.5",
        "-5",
        "+5",
        "5,5",
        "5e3",
        "5.-5",
        "5. ",
        "1234567.1",
    ] {
        assert_eq!(ticks(word.as_bytes()), None, "{word}");
    }
}

#[test]
fn a_tick_is_a_thousandth() {
    let text = actions(&[&action("a", "0.5", "(and)", "(and)")], "", "(and)");
    let job = job(text, "3.25: (a) [0.500]");
    assert_eq!((job.steps[0].start, job.steps[0].length), (3_250, 500));
}
