//! The claims contract of examples/adjudication.md through the crate: a claim is rejected though it could be approved.

use fernpocket::{check, operate, read_text, run, Path, Refusal, States, Terminal};

// The names of examples/adjudication.md.
const ADJUDICATOR: usize = 0;
const CLAIMANT: usize = 1;
const DECIDE_CLAIM: usize = 0;
const APPROVED: usize = 0;
const REJECTED: usize = 1;
const ADJUDICATE: usize = 0;
const CLAIM: usize = 0;
/// The states of the claim.
const IN_REVIEW: i64 = 0;
const IS_REJECTED: i64 = 2;

fn sheet() -> Vec<i64> {
    let text = include_bytes!("../../../examples/adjudication.txt");
    let mut words = vec![0; text.len() / 2];
    let count = read_text(text, &mut words).unwrap();
    words.truncate(count);
    assert_eq!(check(&words), Ok(()));
    words
}

#[test]
fn the_adjudicator_says_no() {
    let (sheet, eligible, given) = (sheet(), [1], [1]);
    let decide = |states: &mut States, persona, wanted| {
        operate(&sheet, &eligible, &given, &[], &[], states, &[0], persona, DECIDE_CLAIM, wanted)
    };
    let mut states = States::one_each(&[IN_REVIEW]);
    // Both outcomes start from review: nobody but the caller can say which.
    assert_eq!(decide(&mut states, ADJUDICATOR, None), Err(Refusal::ManyOutcomes));
    assert_eq!(decide(&mut states, CLAIMANT, Some(APPROVED)), Err(Refusal::Persona));
    assert_eq!(states.each(), Some(vec![IN_REVIEW]));

    assert_eq!(decide(&mut states, ADJUDICATOR, Some(REJECTED)), Ok(REJECTED));
    assert_eq!(states.each(), Some(vec![IS_REJECTED]));

    // It is decided: neither applies any more, and it is the claim that stands in the way.
    for wanted in [Some(APPROVED), Some(REJECTED), None] {
        assert_eq!(decide(&mut states, ADJUDICATOR, wanted), Err(Refusal::NoOutcome { entity: CLAIM, wanted }));
    }
    assert_eq!(decide(&mut states, ADJUDICATOR, Some(2)), Err(Refusal::Missing));
}

#[test]
fn and_so_in_a_run() {
    let (sheet, mut path) = (sheet(), [9; 3]);
    let mut decided = |wanted: &[Option<usize>]| {
        let mut states = States::one_each(&[IN_REVIEW]);
        let end = run(&sheet, &[1], &[1], &[], &[], &mut states, &[0], ADJUDICATE, wanted, &mut path);
        (end, states.get(CLAIM, 0))
    };
    let ends = |terminal| Ok(Path { terminal, length: 1 });
    assert_eq!(decided(&[Some(REJECTED)]), (ends(Terminal::Failure), Some(IS_REJECTED)));
    assert_eq!(decided(&[None]), (ends(Terminal::Escalation), Some(IN_REVIEW)));
    assert_eq!(decided(&[]), (Err(Refusal::Length), Some(IN_REVIEW)));
    assert_eq!(decided(&[None; 300]), (Err(Refusal::Length), Some(IN_REVIEW)));
    assert_eq!(decided(&[Some(2)]), (Err(Refusal::Missing), Some(IN_REVIEW)));
}
