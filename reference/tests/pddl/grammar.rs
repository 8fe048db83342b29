//! The two grammars as rules: made texts are refused at the sign that no rule lets stand there.

use std::collections::{BTreeMap, BTreeSet};

use super::earley::Grammar;
use reference::make::pddl::some_texts;
use reference::pddl::actions::read_actions;
use reference::pddl::names::is_name;
use reference::pddl::plan::read_plan;
use reference::pddl::words::{signs, Sign, Text};
use reference::random::Random;

const ACTIONS: &str = "
<text> -> <actions> ( :init <listed> ) ( :goal <goal-1> )
<actions> ->
<actions> -> <actions> <action>
<action> -> ( :durative-action N <duration> :condition <condition-1> :effect <effect-1> )
<duration> -> :duration ( = ?duration T )
<listed> ->
<listed> -> <listed> ( N )
<listed> -> <listed> ( = ( N ) W )
<condition> -> ( at start <fact> )
<condition> -> ( over all <fact> )
<condition> -> ( at end <fact> )
<effect> -> ( at start <done> )
<effect> -> ( at end <done> )
<done> -> <fact>
<done> -> ( increase ( N ) W )
<done> -> ( decrease ( N ) W )
<goal> -> <fact>
<fact> -> ( N )
<fact> -> ( not ( N ) )
";

/// One item or (and ..) of any number, as deep as said.
const ONE_OR_MANY: &str = "
<ITEM-DEPTH> -> <ITEM>
<ITEM-DEPTH> -> ( and <all-ITEM-DEEPER> )
<all-ITEM-DEEPER> ->
<all-ITEM-DEEPER> -> <all-ITEM-DEEPER> <ITEM-DEEPER>
";

/// What follows the last line end is a line too, which may be blank.
const PLAN: &str = "
<plan> -> <line>
<plan> -> <plan> line-end <line>
<line> ->
<line> -> T : ( N ) [ T ]
";

fn grammar_of_actions(deepest: usize) -> Grammar {
    let mut rules = ACTIONS.to_string();
    for item in ["condition", "effect", "goal"] {
        for depth in 1..=deepest {
            let deeper = (depth + 1).to_string();
            let named = ONE_OR_MANY.replace("ITEM", item).replace("DEEPER", &deeper);
            rules += &named.replace("DEPTH", &depth.to_string());
        }
        rules += &format!("<{item}-{}> -> <{item}>\n", deepest + 1);
    }
    Grammar::of(&rules)
}

/// The signs of a text without its end, and the lines of all, the end's too.
fn signs_and_lines(text: &[u8], of: Text) -> (Vec<Vec<u8>>, Vec<usize>) {
    let placed = signs(text, of);
    let lines = placed.iter().map(|placed| placed.line).collect();
    let bytes = placed.iter().filter_map(|placed| match placed.sign {
        Sign::Word(word) => Some(word.to_vec()),
        Sign::Bracket(bracket) => Some(vec![bracket]),
        Sign::LineEnd => Some(vec![b'\n']),
        Sign::End => None,
    });
    (bytes.collect(), lines)
}

/// The first name that is given twice, or stands for two kinds, among signs that can stand where
/// they are.
fn first_clash(signs: &[Vec<u8>]) -> Option<usize> {
    let mut kinds: BTreeMap<&[u8], &str> = BTreeMap::new();
    let mut given = BTreeSet::new();
    let sign = |at: usize| signs.get(at).map_or(&b""[..], Vec::as_slice);
    for at in 2..signs.len() {
        let name = sign(at);
        let kind = match (sign(at - 2), sign(at - 1)) {
            (_, b":durative-action") => "action",
            (b"increase" | b"decrease" | b"=", b"(") => "level",
            (_, b"(") => "fact",
            _ => continue,
        };
        if !is_name(name) {
            continue;
        }
        let init = signs[..at].iter().position(|sign| sign == b":init");
        let goal = signs[..at].iter().position(|sign| sign == b":goal");
        let once = kind == "action" || (init.is_some() && goal.is_none());
        let clashes = *kinds.entry(name).or_insert(kind) != kind;
        if clashes || (once && !given.insert(name)) {
            return Some(at);
        }
    }
    None
}

/// The first fault of an action text: 19 where the rules would go on with one (and ..) more in the
/// others, else 18, unless a name clashes before.
fn expected_of_actions(limited: &Grammar, deeper: &Grammar, text: &[u8]) -> Option<(u16, usize)> {
    let (signs, lines) = signs_and_lines(text, Text::Actions);
    let fault = limited.first_fault("<text>", &signs);
    let stand = &signs[..fault.unwrap_or(signs.len())];
    if let Some(at) = first_clash(stand) {
        return Some((18, lines[at]));
    }
    let fault = fault?;
    let would_stand = deeper.first_fault("<text>", &signs) != Some(fault);
    Some((if would_stand { 19 } else { 18 }, lines[fault]))
}

#[test]
fn made_action_texts_are_refused_where_no_rule_goes_on() {
    let (limited, deeper) = (grammar_of_actions(16), grammar_of_actions(17));
    let mut random = Random::seeded(27);
    let mut numbers = BTreeMap::new();
    for _ in 0..400 {
        let text = some_texts(&mut random).actions;
        if text.len() > 4_000 {
            continue;
        }
        let expected = expected_of_actions(&limited, &deeper, &text);
        let refused = read_actions(&text).err();
        let found = refused.map(|refusal| (refusal.number, usize::from(refusal.place)));
        assert_eq!(found, expected, "{}", String::from_utf8_lossy(&text));
        *numbers
            .entry(found.map_or(0, |(number, _)| number))
            .or_insert(0) += 1;
    }
    assert!(
        numbers.len() == 3 && numbers.values().all(|&n| n >= 15),
        "{numbers:?}"
    );
}

#[test]
fn made_plans_are_refused_where_no_rule_goes_on() {
    let grammar = Grammar::of(PLAN);
    let mut random = Random::seeded(28);
    let mut faults = 0;
    for _ in 0..1_500 {
        let text = some_texts(&mut random).plan;
        if text.len() > 4_000 {
            continue;
        }
        let (signs, lines) = signs_and_lines(&text, Text::Plan);
        let fault = grammar.first_fault("<plan>", &signs);
        let expected = fault.map(|at| (18, lines[at]));
        let refused = read_plan(&text).err();
        let found = refused.map(|refusal| (refusal.number, usize::from(refusal.place)));
        assert_eq!(found, expected, "{}", String::from_utf8_lossy(&text));
        faults += usize::from(found.is_some());
    }
    assert!(faults >= 75, "{faults}");
}
