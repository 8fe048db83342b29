//! The grammar of the action text.

use super::{
    action, actions, all_marked, all_marked_between, marked, told, told_alone, with_condition,
    with_effect, Told, GOOD,
};

pub fn all() -> Vec<Told> {
    [
        the_request_s_own_form(),
        numbers_of_actions(),
        empty_texts(),
        parts_of_the_text(),
        parts_of_an_action(),
        good_conditions(),
        faulty_conditions(),
        good_effects(),
        faulty_effects(),
        names_that_begin_as_keywords(),
        good_init(),
        faulty_init(),
        good_goals(),
        faulty_goals(),
        depths(),
        places_of_19(),
    ]
    .concat()
}

pub fn the_request_s_own_form() -> Vec<Told> {
    let text = "(:durative-action N :duration (= ?duration 5) :condition (at start (F)) \
                :effect (at end (F))) (:init (F) (= (L) 7)) (:goal (F))";
    vec![told_alone(text, GOOD), told(text, "0: (N) [5]", GOOD)]
}

pub fn numbers_of_actions() -> Vec<Told> {
    let one = action("a", "1", "(and)", "(and)");
    let two = action("b", "2", "(and)", "(and)");
    vec![
        told_alone("(:init) (:goal (and))", GOOD),
        told_alone(actions(&[&one], "", "(and)"), GOOD),
        told_alone(actions(&[&one, &two], "", "(and)"), GOOD),
    ]
}

pub fn empty_texts() -> Vec<Told> {
    vec![
        told_alone("", (18, 0)),
        told_alone(" \t", (18, 0)),
        told_alone("\n\n", (18, 2)),
    ]
}

pub fn parts_of_the_text() -> Vec<Told> {
    all_marked(&[
        "@:init",
        "@) ( :init )",
        "( @:goal ( and ) )",
        "( @init ) ( :goal ( and ) )",
        "( @:Init ) ( :goal ( and ) )",
        "( @:initial ) ( :goal ( and ) )",
        "( @( :init ) ( :goal ( and ) )",
        "( :init ) @",
        "( :init ) ( @:init ) ( :goal ( and ) )",
        "( :init ) ( @:durative-action n",
        "( :init ) ( :goal ( and ) @",
        "( :init ) ( :goal ( and ) ) @x",
        "( :init ) ( :goal ( and ) ) @)",
        "( :init ) ( :goal ( and ) ) @( :goal ( and ) )",
        "( :init ) ( :goal ( and ) ) @; the end",
    ])
}

pub fn parts_of_an_action() -> Vec<Told> {
    all_marked(&[
        "( @:durative-actions n",
        "( @:action n",
        "( :durative-action @( n )",
        "( :durative-action @:duration",
        "( :durative-action n @:condition",
        "( :durative-action n @( = ?duration 5 )",
        "( :durative-action n :duration @5",
        "( :durative-action n :duration ( @?duration = 5 )",
        "( :durative-action n :duration ( = @duration 5 )",
        "( :durative-action n :duration ( = ?duration @) )",
        "( :durative-action n :duration ( = ?duration 5 @5 )",
        "( :durative-action n :duration ( = ?duration 5 ) @:effect ( and )",
        "( :durative-action n :duration ( = ?duration 5 ) :condition @:effect ( and )",
        "( :durative-action n :duration ( = ?duration 5 ) :condition ( and ) @)",
        "( :durative-action n :duration ( = ?duration 5 ) :condition ( and ) @( and )",
        "( :durative-action n :duration ( = ?duration 5 ) :condition ( and ) :effect @)",
        "( :durative-action n :duration ( = ?duration 5 ) :condition ( and ) :effect ( and ) @( :i",
        "( :durative-action n :duration ( = ?duration 5 ) :condition ( and ) :effect ( and ) @:eff",
        "( :durative-action n @:parameters ( ) :duration",
    ])
}

// ---------------------------------------------------------------------------------------------
// Conditions and effects

/// The beginning of an action up to its conditions, each sign on a line to itself.
const TO_CONDITION: &str = "( :durative-action n :duration ( = ?duration 5 ) :condition";
const AFTER_CONDITION: &str = ":effect ( and ) ) ( :init ) ( :goal ( and ) )";
const TO_EFFECT: &str =
    "( :durative-action n :duration ( = ?duration 5 ) :condition ( and ) :effect";
const AFTER_EFFECT: &str = ") ( :init ) ( :goal ( and ) )";

pub fn good_conditions() -> Vec<Told> {
    [
        "(at start (f))",
        "(over all (f))",
        "(at end (f))",
        "(at start (not (f)))",
        "(over all (not (f)))",
        "(at end (not (f)))",
        "(and)",
        "(and (at start (f)))",
        "(and (at start (f)) (over all (g)) (at end (not (h))))",
        "(and (and (at end (f))) (and) (at start (f)))",
    ]
    .map(|condition| told_alone(with_condition(condition), GOOD))
    .to_vec()
}

pub fn faulty_conditions() -> Vec<Told> {
    let conditions = [
        "( @)",
        "( @f )",
        "( @not ( at start ( f ) ) )",
        "( at @all ( f ) )",
        "( at @( f ) )",
        "( over @start ( f ) )",
        "( over @end ( f ) )",
        "( @start ( f ) )",
        "( @all ( f ) )",
        "( @AT start ( f ) )",
        "( at @Start ( f ) )",
        "( at @starts ( f ) )",
        "( @at-start ( f ) )",
        "( @overall ( f ) )",
        "( at start @f )",
        "( at start @) )",
        "( at start @not ( f ) )",
        "( at start ( @) )",
        "( at start ( @( f ) ) )",
        "( at start ( f ) @( g ) )",
        "( at start ( f @g ) )",
        "( at start ( f @?x ) )",
        "( at start ( not @f ) )",
        "( at start ( not ( @not ( f ) ) ) )",
        "( at start ( not ( f ) @( g ) ) )",
        "( at start ( not ( f @g ) ) )",
        "( at start ( @and ( f ) ) )",
        "( at start ( not ( @and ( f ) ) ) )",
        "( at start ( @at start ( f ) ) )",
        "( at start ( @increase ( l ) 5 ) )",
        "( at start ( @= ( l ) 5 ) )",
        "( and @f )",
        "( and ( @f ) )",
        "( and ( at start ( f ) ) @at end ( f ) )",
        "( at start ( f ) ) @( at end ( f ) )",
        "( @or ( at start ( f ) ) )",
        "( @And ( at start ( f ) ) )",
        "( @ands ( at start ( f ) ) )",
    ];
    all_marked_between(TO_CONDITION, &conditions, AFTER_CONDITION)
}

pub fn good_effects() -> Vec<Told> {
    [
        "(at start (f))",
        "(at end (f))",
        "(at start (not (f)))",
        "(at end (not (f)))",
        "(at start (increase (l) 5))",
        "(at end (decrease (l) 5))",
        "(and)",
        "(and (at start (f)) (at start (decrease (l) 1)) (at end (not (f))))",
        "(and (and (at end (increase (l) 1))) (at end (not (f))) (and))",
    ]
    .map(|effect| told_alone(with_effect(effect), GOOD))
    .to_vec()
}

pub fn faulty_effects() -> Vec<Told> {
    let effects = [
        "( @over all ( f ) )",
        "( @f )",
        "( @increase ( l ) 5 )",
        "( @not ( at end ( f ) ) )",
        "( at end ( not ( @increase ( l ) 5 ) ) )",
        "( at end ( increase @l 5 ) )",
        "( at end ( increase ( l ) @) )",
        "( at end ( increase ( l ) @-5 ) )",
        "( at end ( increase ( l ) @5.5 ) )",
        "( at end ( increase ( l ) @( 5 ) ) )",
        "( at end ( increase ( l ) 5 @5 ) )",
        "( at end ( increase ( @not ) 5 ) )",
        "( at end ( increase ( l @m ) 5 ) )",
        "( at end ( increase @5 ( l ) ) )",
        "( at end ( @and ( f ) ) )",
        "( at end ( f ) @( g ) )",
        "( at @all ( f ) )",
    ];
    all_marked_between(TO_EFFECT, &effects, AFTER_EFFECT)
}

const AS_KEYWORDS: [&str; 21] = [
    "increased",
    "increase1",
    "decreaser",
    "not-yet",
    "note",
    "at-home",
    "att",
    "overt",
    "android",
    "and_",
    "start",
    "end",
    "all",
    "AND",
    "Not",
    "AT",
    "Over",
    "INCREASE",
    "init",
    "goal",
    "duration",
];

/// Each as a fact, a level and an action.
pub fn names_that_begin_as_keywords() -> Vec<Told> {
    let mut texts = Vec::new();
    for name in AS_KEYWORDS {
        let condition = format!("(and (at start ({name})) (over all (not ({name}))))");
        texts.push(told_alone(with_condition(&condition), GOOD));
        let effect = format!("(at end ({name}))");
        texts.push(told_alone(with_effect(&effect), GOOD));
        let effect = format!("(at end (increase ({name}) 1))");
        texts.push(told_alone(with_effect(&effect), GOOD));
        let init = format!("({name})");
        texts.push(told_alone(actions(&[], &init, &init), GOOD));
        let act = action(name, "5", "(and)", "(and)");
        let text = actions(&[&act], "", "(and)");
        texts.push(told(text, format!("0: ({name}) [5]"), GOOD));
    }
    texts
}

// ---------------------------------------------------------------------------------------------
// Init and goal

pub fn good_init() -> Vec<Told> {
    ["", "(f)", "(= (l) 5)", "(f) (= (l) 5) (g) (= (m) 0)"]
        .map(|init| told_alone(actions(&[], init, "(and)"), GOOD))
        .to_vec()
}

pub fn faulty_init() -> Vec<Told> {
    let listed = [
        "@f",
        "( @) )",
        "( @( f ) )",
        "( f @g )",
        "( @not ( f ) )",
        "( @and ( f ) )",
        "( @at start ( f ) )",
        "( @:goal",
        "( = @l 5 )",
        "( = ( l ) @)",
        "( = ( l ) @x )",
        "( = ( l ) 5 @6 )",
        "( = @5 ( l ) )",
        "( = ( @) 5 )",
        "( = ( l @m ) 5 )",
        "( @== ( l ) 5 )",
        "( @increase ( l ) 5 )",
        "@[ f ]",
    ];
    all_marked_between("( :init", &listed, ") ( :goal ( and ) )")
}

pub fn good_goals() -> Vec<Told> {
    [
        "(f)",
        "(not (g))",
        "(and)",
        "(and (f) (not (g)))",
        "(and (and (f) (and)) (not (g)))",
    ]
    .map(|goal| told_alone(actions(&[], "(f)", goal), GOOD))
    .to_vec()
}

pub fn faulty_goals() -> Vec<Told> {
    let goals = [
        "@)",
        "@f",
        "( @) )",
        "( @at end ( f ) )",
        "( @over all ( f ) )",
        "( f ) @( g )",
        "( f @g )",
        "( not @f )",
        "( not ( @not ( f ) ) )",
        "( not ( @and ( f ) ) )",
        "( not ( f ) @( g ) )",
        "( @increase ( l ) 5 )",
        "( @= ( l ) 5 )",
        "( and @f )",
        "( and ( f ) ) ) @x",
    ];
    all_marked_between("( :init ) ( :goal", &goals, ")")
}

// ---------------------------------------------------------------------------------------------
// Depth

/// So many (and ..) in each other around an item.
fn nested(depth: usize, item: &str) -> String {
    format!("{}{item}{}", "( and ".repeat(depth), " )".repeat(depth))
}

/// The outermost is of depth 1, and 16 is the deepest; beside each other they may be any number,
/// and each part begins anew.
pub fn depths() -> Vec<Told> {
    let mut texts = Vec::new();
    for inner in ["( at end ( f ) )", ""] {
        for text in [with_condition, with_effect] {
            texts.push(told_alone(text(&nested(16, inner)), GOOD));
            texts.push(told_alone(text(&nested(17, inner)), (19, 0)));
            texts.push(told_alone(text(&nested(40, inner)), (19, 0)));
            let beside = format!("( and {} )", nested(15, inner).repeat(40));
            texts.push(told_alone(text(&beside), GOOD));
        }
    }
    for inner in ["( f )", "( not ( g ) )", ""] {
        let goal = |goal: &str| actions(&[], "(f)", goal);
        texts.push(told_alone(goal(&nested(16, inner)), GOOD));
        texts.push(told_alone(goal(&nested(17, inner)), (19, 2)));
    }
    let sixteen = nested(16, "");
    let one = action("a", "5", &sixteen, &sixteen);
    let other = action("b", "5", &sixteen, &sixteen);
    let text = actions(&[&one, &other], "", &sixteen);
    texts.push(told_alone(text, GOOD));
    texts
}

/// At the seventeenth `and`; but what comes first in the text decides, and an `and` that could not
/// stand there at any depth is outside the grammar.
pub fn places_of_19() -> Vec<Told> {
    let open = "( and ".repeat(16);
    let close = " )".repeat(16);
    vec![
        marked(19, &format!("{TO_CONDITION} {open}( @and ) {close}")),
        marked(
            19,
            &format!("{TO_EFFECT} {open}( @and ( at start ( f ) ) )"),
        ),
        marked(19, &format!("( :init ) ( :goal {open}( @and")),
        marked(19, &format!("{TO_CONDITION} {open}( @and f")),
        marked(18, &format!("{TO_CONDITION} {open}@and ) {close}")),
        marked(18, &format!("{TO_CONDITION} ( and @x {open}( and")),
        marked(18, &format!("{TO_CONDITION} {open}( at start ( @and ) )")),
        marked(18, &format!("( :init ) ( :goal {open}( not ( @and")),
    ]
}
