//! Names and numbers: their forms, and that each name has one kind.

use super::{action, actions, all_marked, marked, told, told_alone, Told, GOOD};

pub fn all() -> Vec<Told> {
    [
        good_names(),
        no_names(),
        names_of_31_bytes(),
        actions_given_twice(),
        init_names_given_twice(),
        names_given_often(),
        names_of_two_kinds(),
        clashes_and_faults(),
        faulty_numbers(),
        durations_in_ticks(),
    ]
    .concat()
}

fn with_name(name: impl AsRef<[u8]>, answer: (u16, u16)) -> Told {
    let text = [b"(:init (", name.as_ref(), b"))\n(:goal (and))"].concat();
    told_alone(text, answer)
}

pub fn good_names() -> Vec<Told> {
    let names = [
        "a", "Z", "a1", "a-", "a_", "a-b_c-9", "deck-B2", "start", "end", "all", "AND", "x--",
    ];
    let mut texts = names.map(|name| with_name(name, GOOD)).to_vec();
    // Capitals are distinct.
    let text = actions(&[], "(deck) (Deck) (DECK)", "(and)");
    texts.push(told_alone(text, GOOD));
    let act = action("act", "5", "(and)", "(and)");
    let text = actions(&[&act], "", "(and)");
    texts.push(told(text, "0: (Act) [5]", (20, 0)));
    texts
}

pub fn no_names() -> Vec<Told> {
    let names = [
        "1a", "-a", "_a", "9", "a.b", "a:b", ":a", "?a", "a?", "a=b", "a+", "a/b", "a,b", "a;",
        "a\r", "a\u{b}", "a\u{c}", "a\0", "ä", "aé", "@", "a'", "at", "over", "and", "not",
        "increase", "decrease",
    ];
    let mut texts = names.map(|name| with_name(name, (18, 0))).to_vec();
    let above_127 = [128, 160, 233, 255];
    texts.extend(above_127.map(|byte| with_name([b'a', byte], (18, 0))));
    texts
}

/// And one more.
pub fn names_of_31_bytes() -> Vec<Told> {
    let name = "deck-1-deck-2-deck-3-deck-4-dec";
    let longer = format!("{name}k");
    let act = action(name, "5", "(and)", "(and)");
    let text = actions(&[&act], "", "(and)");
    vec![
        with_name(name, GOOD),
        with_name(&longer, (18, 0)),
        told(&text, format!("0: ({name}) [5]"), GOOD),
        told(&text, format!("\n0: ({longer}) [5]"), (18, 1)),
    ]
}

// ---------------------------------------------------------------------------------------------
// Kinds

/// The beginning of an action, each sign on a line to itself.
fn begun(name: &str) -> String {
    format!("( :durative-action {name} :duration ( = ?duration 5 ) :condition")
}

const REST: &str = "( :init ) ( :goal ( and ) )";

pub fn actions_given_twice() -> Vec<Told> {
    let one = format!("{} ( and ) :effect ( and ) )", begun("a"));
    let other = format!("{} ( and ) :effect ( and ) )", begun("A"));
    let again = format!("( :durative-action @a :duration {REST}");
    vec![
        marked(18, &format!("{one} {again}")),
        marked(18, &format!("{one} {other} {again}")),
    ]
}

pub fn init_names_given_twice() -> Vec<Told> {
    all_marked(&[
        "( :init ( f ) ( @f ) ) ( :goal ( and ) )",
        "( :init ( f ) ( g ) ( @f ) ) ( :goal ( and ) )",
        "( :init ( = ( l ) 5 ) ( = ( @l ) 5 ) ) ( :goal ( and ) )",
        "( :init ( = ( l ) 5 ) ( m ) ( = ( @l ) 6 ) ) ( :goal ( and ) )",
    ])
}

/// Elsewhere that is no fault.
pub fn names_given_often() -> Vec<Told> {
    let both = "(and (at start (f)) (at start (f)) (at end (f)))";
    let uses = "(and (at start (f)) (at end (f)) \
                (at start (increase (l) 1)) (at end (increase (l) 1)))";
    let text = actions(
        &[&action("a", "5", both, uses), &action("b", "5", both, uses)],
        "(f) (= (l) 5)",
        "(and (f) (f) (f))",
    );
    let plan = "0: (a) [5]\n9: (b) [5]\n20: (a) [5]";
    vec![told(text, plan, GOOD)]
}

pub fn names_of_two_kinds() -> Vec<Told> {
    let a = begun("a");
    let done = ":effect ( and ) )";
    let texts = [
        // An action, then a fact.
        format!("{a} ( at start ( @a ) ) {done} {REST}"),
        format!("{a} ( at start ( not ( @a ) ) ) {done} {REST}"),
        format!("{a} ( and ) :effect ( at end ( @a ) ) ) {REST}"),
        format!("{a} ( and ) {done} ( :init ( @a ) ) ( :goal ( and ) )"),
        format!("{a} ( and ) {done} ( :init ) ( :goal ( @a ) )"),
        format!("{a} ( and ) {done} ( :init ) ( :goal ( not ( @a ) ) )"),
        // An action, then a level.
        format!("{a} ( and ) :effect ( at end ( increase ( @a ) 1 ) ) ) {REST}"),
        format!("{a} ( and ) {done} ( :init ( = ( @a ) 5 ) ) ( :goal ( and ) )"),
        // A fact, then an action.
        format!("{a} ( at start ( f ) ) {done} ( :durative-action @f {REST}"),
        // A fact, then a level.
        format!("{a} ( at start ( f ) ) :effect ( at end ( increase ( @f ) 1 ) ) ) {REST}"),
        format!("{a} ( and ) :effect ( and ( at end ( f ) ) ( at end ( decrease ( @f ) 1 ) ) ) )"),
        "( :init ( f ) ( = ( @f ) 5 ) ) ( :goal ( and ) )".to_string(),
        // A level, then an action.
        format!("{a} ( and ) :effect ( at end ( increase ( l ) 1 ) ) ) ( :durative-action @l"),
        // A level, then a fact.
        format!("{a} ( and ) :effect ( and ( at end ( increase ( l ) 1 ) ) ( at end ( @l ) ) ) )"),
        "( :init ( = ( l ) 5 ) ( @l ) ) ( :goal ( and ) )".to_string(),
        "( :init ( = ( l ) 5 ) ) ( :goal ( @l ) )".to_string(),
    ];
    texts.iter().map(|text| marked(18, text)).collect()
}

/// Of a clash and a fault of grammar the first decides.
pub fn clashes_and_faults() -> Vec<Told> {
    let deep = "( and ".repeat(17);
    vec![
        marked(18, "( :init ( f ) ( @f ) x"),
        marked(18, "( :init ( f ) ( @f x"),
        marked(18, "( :init ( f ) @x ( f )"),
        marked(18, &format!("( :init ( f ) ( @f ) ) ( :goal {deep}")),
    ]
}

// ---------------------------------------------------------------------------------------------
// Numbers

/// At their word in the action text, at their line in the plan.
pub fn faulty_numbers() -> Vec<Told> {
    let mut texts = Vec::new();
    for duration in ["5.1234", "1234567", ".5", "5.", "x", "?duration", "-5"] {
        let text = format!("( :durative-action n :duration ( = ?duration @{duration} ) :condition");
        texts.push(marked(18, &text));
    }
    for amount in ["1234567890", "0000000001", "5.0", "x", "-1"] {
        texts.push(marked(18, &format!("( :init ( = ( l ) @{amount} ) )")));
    }
    let text = actions(&[&action("a", "5.5", "(and)", "(and)")], "", "(and)");
    for plan in [
        "5.1234: (a) [5.5]",
        "1234567: (a) [5.5]",
        ".5: (a) [5.5]",
        "5.: (a) [5.5]",
        "5: (a) [5.5000]",
        "5: (a) [.5]",
        "5: (a) [0000005.5]",
    ] {
        texts.push(told(&text, plan, (18, 0)));
        texts.push(told(&text, format!("\n \n{plan}\n"), (18, 2)));
    }
    texts
}

/// A plan line's duration is compared with the action's in ticks.
pub fn durations_in_ticks() -> Vec<Told> {
    let alike = [
        ("5", "5"),
        ("5", "5.0"),
        ("5", "5.000"),
        ("5.5", "5.500"),
        ("5.50", "000005.5"),
        ("0", "0.000"),
    ];
    let unlike = [("5", "5.001"), ("5.5", "5.05"), ("5", "50"), ("5", "0.005")];
    let text = |written, planned: &str, answer| {
        let text = actions(&[&action("a", written, "(and)", "(and)")], "", "(and)");
        told(text, format!("0: (a) [{planned}]"), answer)
    };
    let alike = alike.map(|(written, planned)| text(written, planned, GOOD));
    let unlike = unlike.map(|(written, planned)| text(written, planned, (20, 0)));
    alike.into_iter().chain(unlike).collect()
}
