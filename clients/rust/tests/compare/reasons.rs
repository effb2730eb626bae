//! Why a call is refused: its reasons in the order of the tests, those that apply to what was lent, and words for what was wrong.
use crate::calls::answer;
use hold_desk_client::Answer;

/// A reason, and its answer's number.
pub type Reason = (&'static str, u64);

/// The reasons that apply, each with its answer: those that find something that is not good, and the two values that each of them gives.
pub fn applying(reasons: &[Reason], good: &[bool], values: &[(u64, u64)]) -> Vec<(&'static str, Answer)> {
    let all = reasons.iter().zip(values).map(|(&(why, number), &(first, second))| (why, answer(number, first, second)));
    all.zip(good).filter(|(_, good)| !**good).map(|(refusal, _)| refusal).collect()
}

/// Whether the order of two reasons can be seen.
fn apart(one: Reason, other: Reason) -> bool {
    one != other && (one.1 != other.1 || one.1 == 7)
}

/// Each reason for a refusal before each other, where their order can be seen.
pub fn orders(reasons: &[Reason]) -> Vec<String> {
    let later = |one: usize| reasons[one..].iter().filter(move |&&other| apart(reasons[one], other));
    (0..reasons.len()).flat_map(|one| later(one).map(move |other| format!("{} before {}", reasons[one].0, other.0))).collect()
}

/// How a length is not the exact one.
pub fn off(length: usize, exact: usize) -> &'static str {
    match length as i64 - exact as i64 {
        1 => "one longer",
        -1 => "one shorter",
        _ if length == 0 => "of none",
        difference if difference > 0 => "longer",
        _ => "shorter",
    }
}

/// Which flights have what none may have.
pub fn which(flights: &[bool]) -> &'static str {
    match (flights.iter().filter(|&&has| has).count(), flights.first(), flights.last()) {
        (1, Some(true), Some(false)) => "the first flight",
        (1, Some(false), Some(true)) => "the last flight",
        (1, Some(false), Some(false)) => "a flight between",
        _ => "several flights, or of the only one",
    }
}
