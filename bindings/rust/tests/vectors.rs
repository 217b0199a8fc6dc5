//! The vectors published for SLIP-0039, in both orders of their mnemonics.
#![cfg(feature = "alloc")]
mod given;

use given::digits;
use shamir::{Drill, Error, Found, Mnemonics, RecoverOptions, recover};

/// The table has the vectors after empty lines. A vector is what comes of its mnemonics, and the mnemonics, one a line. What comes
/// of them is their quorum and the secret, or a refusal; where their order tells, a second for the other order.
const TABLE: &str = include_str!(env!("SHAMIR_VECTORS"));

fn vectors() -> Vec<&'static str> {
    let (_, rest) = TABLE.split_once("const PUBLISHED: &str = \"").unwrap();
    rest.split_once('"').unwrap().0.split("\n\n").collect()
}

fn recovered(lines: &Mnemonics, quorum: &str) -> Result<String, Error> {
    recover(lines, &RecoverOptions::new().passphrase("TREZOR")).map(|secret| format!("{quorum} {}", digits(secret.as_bytes())))
}

fn drilled(lines: &Mnemonics) -> Result<String, Error> {
    let outcomes: Result<Vec<_>, Error> = Drill::new(lines, &RecoverOptions::new().passphrase("TREZOR")).collect();
    let outcomes = outcomes?;
    assert_eq!(outcomes.len(), 1);
    Ok(match &outcomes[0].found {
        Found::Secret(secret) => format!("{} {}", outcomes[0].names, digits(secret.as_bytes())),
        Found::Mismatch(mismatch) => format!("51 {mismatch}"),
        other => panic!("{other:?}"),
    })
}

fn told(result: Result<String, Error>) -> String {
    result.unwrap_or_else(|error| error.to_string())
}

#[test]
fn there_are_45_vectors() {
    assert_eq!(vectors().len(), 45);
}

#[test]
fn recover_and_drill_give_what_is_published() {
    for vector in vectors() {
        let (outcomes, lines) = vector.split_once('\n').unwrap();
        let (first, other) = outcomes.split_once("; ").unwrap_or((outcomes, outcomes));
        let quorum = first.split(' ').next().unwrap();
        let backwards: Mnemonics = lines.lines().rev().collect();
        for (right, lines) in [(first, lines.lines().collect()), (other, backwards)] {
            assert_eq!(told(recovered(&lines, quorum)), right);
            assert_eq!(told(drilled(&lines)), right);
        }
    }
}
