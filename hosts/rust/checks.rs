//! What the desk for Rust makes of an answer: sentences, codes that nobody knows, equal desks, a slice too short.

use desk::{raw, Code, Desk, Refusal, State, NEVER};
use std::collections::HashSet;

/// The largest code of docs/codes.txt that a host meets.
const LARGEST: u32 = 12;

fn refusal(code: u32, value: u64, time: u32) -> Refusal {
    raw::Answer { code, value, time }
        .accepted()
        .expect_err("a code that is not 0 is a refusal")
}

/// A desk with an item at timestamp 5, which the next sweep hands back.
fn with_an_item_to_leave() -> Result<Desk, Refusal> {
    let mut desk = Desk::fresh();
    let channel = desk.channel(0)?;
    let output = desk.attach_output(0, channel)?;
    desk.put(0, output, 5, 500)?;
    desk.set(0, NEVER)?;
    Ok(desk)
}

#[test]
fn both_prints_are_the_sentence() {
    let refusal = Desk::fresh()
        .get_earliest(7, 0)
        .expect_err("there is no thread 7");
    let sentence = "refused (1): no such living thread; the thread has ended, or never was";
    assert_eq!(format!("{refusal}"), sentence);
    assert_eq!(format!("{refusal:?}"), sentence);
    assert_eq!(format!("{refusal:#?}"), sentence);
}

#[test]
fn every_code_has_its_number_and_a_sentence_of_its_own() {
    let mut sentences = HashSet::new();
    for number in 1..=LARGEST {
        let code = Code::of(number);
        assert_ne!(code, Code::Unknown(number));
        assert_eq!(code.number(), number);
        assert!(!code.meaning().is_empty() && !code.advice().is_empty());
        let sentence = format!("refused ({number}): {}; {}", code.meaning(), code.advice());
        assert_eq!(refusal(number, 0, 0).to_string(), sentence);
        sentences.insert(sentence);
    }
    assert_eq!(sentences.len(), LARGEST as usize);
}

#[test]
fn an_unknown_code_is_told_and_is_no_panic() {
    for number in [LARGEST + 1, 77, u32::MAX] {
        let refusal = refusal(number, 0, 0);
        assert_eq!(refusal.code, Code::Unknown(number));
        assert_eq!(refusal.code.number(), number);
        let sentence = format!("refused ({number}): no such code; ");
        assert!(refusal.to_string().starts_with(&sentence), "{refusal}");
    }
}

#[test]
fn an_unknown_state_is_none() {
    assert_eq!(State::of(3), Some(State::Consumed));
    assert_eq!(State::of(4), None);
    assert_eq!(State::of(u64::MAX), None);
}

#[test]
fn value_and_time_are_told_where_they_are_not_0() {
    let tail = |code, value, time| {
        let (whole, bare) = (refusal(code, value, time), refusal(code, 0, 0));
        whole.to_string().replacen(&bare.to_string(), "", 1)
    };
    assert_eq!(tail(12, 3, 0), " (value 3)");
    assert_eq!(tail(6, 0, 7), " (time 7)");
    assert_eq!(tail(6, 0, NEVER), " (time never)");
    assert_eq!(tail(77, 3, 7), " (value 3) (time 7)");
}

#[test]
fn a_refusal_keeps_code_value_and_time() {
    let refusal = refusal(6, 1, 2);
    assert_eq!((refusal.value, refusal.time), (1, 2));
    assert_eq!(refusal.code, Code::BelowVisibleTime);
}

#[test]
fn a_default_desk_is_a_fresh_one() {
    assert_eq!(Desk::default(), Desk::fresh());
    assert_eq!(Desk::default().visible_time(0), Ok(0));
}

#[test]
fn equal_desks_are_one_in_a_set() -> Result<(), Refusal> {
    let mut desks = HashSet::from([Desk::fresh(), Desk::default(), with_an_item_to_leave()?]);
    assert_eq!(desks.len(), 2);
    assert!(!desks.insert(with_an_item_to_leave()?.clone()));
    Ok(())
}

#[test]
fn a_refused_call_changes_nothing() -> Result<(), Refusal> {
    let before = with_an_item_to_leave()?;
    let mut desk = before.clone();
    let refusal = desk.put(0, 0, 6, 600).expect_err("6 lies below never");
    assert_eq!(refusal.code, Code::BelowVisibleTime);
    assert_eq!(desk, before);
    Ok(())
}

#[test]
fn a_slice_too_short_is_refused_with_the_number() -> Result<(), Refusal> {
    let before = with_an_item_to_leave()?;
    let mut desk = before.clone();
    for sweep in [Desk::weak_sweep_into, Desk::strong_sweep_into] {
        let refusal = sweep(&mut desk, &mut []).expect_err("an item has no place");
        assert_eq!((refusal.code, refusal.value), (Code::SliceTooShort, 1));
        let sentence = "refused (12): slice shorter than the items to hand back; the value says how long it has to be (value 1)";
        assert_eq!(refusal.to_string(), sentence);
        assert_eq!(desk, before);
    }
    let mut slice = [7, 8];
    assert_eq!(desk.strong_sweep_into(&mut slice)?.number, 1);
    assert_eq!(slice, [500, 8]);
    Ok(())
}
