//! Spaces, tabs and line ends, and words.

use super::*;
use reference::pddl::words::{signs, Placed, Sign, Text};

const TEXT: &str = "( :durative-action hang :duration ( = ?duration 5 ) :condition ( and ( at \
start ( dark ) ) ( over all ( not ( wet ) ) ) ) :effect ( and ( at end ( hung ) ) ( at start ( \
decrease ( fitters ) 2 ) ) ( at end ( increase ( fitters ) 2 ) ) ) ) ( :init ( dark ) ( = ( \
fitters ) 3 ) ) ( :goal ( and ( hung ) ( not ( wet ) ) ) )";

const PLAN: &str = "1.5 : ( hang ) [ 5 ]";

/// Without the blanks that no two words need.
fn tight(text: &str) -> String {
    let mut text = text.to_string();
    for bracket in ["(", ")", "[", "]", ":("] {
        text = text.replace(&format!(" {bracket}"), bracket);
        text = text.replace(&format!("{bracket} "), bracket);
    }
    text.replace(" :(", ":(")
}

#[test]
fn blanks_are_free_where_no_words_meet() {
    let expected = job(TEXT, PLAN);
    let tight_text = tight(TEXT);
    assert!(tight_text.contains("(:init(dark)(=(fitters)3))(:goal(and(hung)(not(wet))))"));
    let tight_plan = tight(PLAN);
    assert_eq!(tight_plan, "1.5:(hang)[5]");
    for text in [
        tight_text.clone(),
        TEXT.replace(' ', "\n"),
        TEXT.replace(' ', "\t"),
        TEXT.replace(' ', " \n\t\n  "),
        format!("\n\t {TEXT}"),
        format!("{TEXT} \n\t "),
        tight_text.replace(' ', "\n"),
    ] {
        assert_eq!(job(&text, PLAN), expected, "{text}");
        assert_eq!(job(&text, &tight_plan), expected, "{text}");
    }
    for plan in [
        PLAN.replace(' ', "\t"),
        PLAN.replace(' ', " \t  "),
        format!(" \t{PLAN}\t "),
        format!("{PLAN}\n"),
        format!("\n\n{PLAN}\n\n"),
        format!(" \t\n{PLAN} \n\t\n "),
    ] {
        assert_eq!(job(TEXT, &plan), expected, "{plan}");
    }
}

#[test]
fn blanks_must_part_two_words() {
    let (before, after) = TEXT.split_once("= ?duration").unwrap();
    for text in [
        format!("{before}=?duration{after}"),
        TEXT.replace("at start", "atstart"),
        TEXT.replace("over all", "overall"),
        TEXT.replace("?duration 5", "?duration5"),
        TEXT.replace(":durative-action hang", ":durative-actionhang"),
        TEXT.replace("hang :duration", "hang:duration"),
    ] {
        assert_eq!(of_actions(&text), (18, 0), "{text}");
    }
}

#[test]
fn blanks_never_stand_inside_a_word() {
    for (word, broken) in [
        (":durative-action", ":durative -action"),
        (":duration", ": duration"),
        ("?duration", "? duration"),
        (":goal", ": goal"),
        ("decrease", "de crease"),
        ("start", "st art"),
        (" fitters", " fit ters"),
        (" 5", " 5 .5"),
        (":init", ":in\nit"),
    ] {
        let text = TEXT.replacen(word, broken, 1);
        assert_eq!(of_actions(text).0, 18, "{broken}");
    }
    for plan in ["1. 5: (hang) [5]", "1.5: (ha ng) [5]", "1.5: (hang) [5 .0]"] {
        assert_eq!(answer(TEXT, plan), (18, 0), "{plan}");
    }
}

#[test]
fn no_other_byte_is_a_blank() {
    for byte in [0, 11, 12, 13, 127, 133, 160, b';', b',', b'"', b'{', b'}'] {
        let mut text = TEXT.as_bytes().to_vec();
        let last = text.iter().rposition(|&byte| byte == b' ').unwrap();
        text[last] = byte;
        assert_eq!(of_actions(&text), (18, 0), "{byte}");
        let mut plan = PLAN.as_bytes().to_vec();
        plan.push(byte);
        assert_eq!(answer(TEXT, &plan), (18, 0), "{byte}");
    }
}

#[test]
fn carriage_returns_and_semicolons_are_outside() {
    assert_eq!(of_actions(format!("; deck B\n{TEXT}")), (18, 0));
    assert_eq!(of_actions(format!("{TEXT}\n; deck B")), (18, 1));
    assert_eq!(of_actions(format!("{TEXT}\r\n")), (18, 0));
    assert_eq!(of_actions(format!("\r{TEXT}")), (18, 0));
    assert_eq!(answer(TEXT, format!("{PLAN}\r\n")), (18, 0));
    assert_eq!(answer(TEXT, format!("{PLAN}\n\r\n")), (18, 1));
    assert_eq!(answer(TEXT, format!("; deck B\n{PLAN}")), (18, 0));
    assert_eq!(answer(TEXT, format!("{PLAN} ; deck B")), (18, 0));
}

#[test]
fn square_brackets_are_brackets_and_in_a_plan_the_colon_is_like_one() {
    let sign = |sign, line| Placed { sign, line };
    let word = |word: &'static str, line| sign(Sign::Word(word.as_bytes()), line);
    assert_eq!(
        signs(b"(a:b[c\n]\r;d)\n", Text::Actions),
        [
            sign(Sign::Bracket(b'('), 0),
            word("a:b", 0),
            sign(Sign::Bracket(b'['), 0),
            word("c", 0),
            sign(Sign::Bracket(b']'), 1),
            word("\r;d", 1),
            sign(Sign::Bracket(b')'), 1),
            sign(Sign::End, 2),
        ]
    );
    assert_eq!(
        signs(b"a:b\n\t:\n", Text::Plan),
        [
            word("a", 0),
            sign(Sign::Bracket(b':'), 0),
            word("b", 0),
            sign(Sign::LineEnd, 0),
            sign(Sign::Bracket(b':'), 1),
            sign(Sign::LineEnd, 1),
            sign(Sign::End, 2),
        ]
    );
    assert_eq!(signs(b"", Text::Plan), [sign(Sign::End, 0)]);
}
