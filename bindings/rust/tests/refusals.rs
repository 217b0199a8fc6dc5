//! Each refusal: the error with its details, its code, and the library's text.
#![cfg(feature = "alloc")]
mod given;

use given::{EXTENDABLE as EXTENDABLE_TWO, FIVE, MISMATCHED_GROUPS, MISMATCHED_SECOND, ONE, ONE_SECRET, PLAN, TWO, bytes};
use shamir::{Counts, CreateOptions, Drill, Error, Mismatch, Name, Plan, RecoverOptions, Secret};
use std::collections::BTreeSet;

// Another program made these mnemonics. They are ONE with a group count of 16, and with the changes that the errors name.
const SIXTEEN: &str = "duckling enlarge acquire romp agency result length solution fridge kidney coal piece deal husband erode duke ajar elbow entrance empty";
const EXTENDABLE: &str = "duckling evil acquire romp agency result length solution fridge kidney coal piece deal husband erode duke ajar failure vexed course";
const EXPONENT: &str = "duckling entrance acquire romp agency result length solution fridge kidney coal piece deal husband erode duke ajar dive mountain fiction";
const THRESHOLD: &str = "duckling enlarge adapt romp agency result length solution fridge kidney coal piece deal husband erode duke ajar advocate criminal artist";
const COUNT: &str = "duckling enlarge academic easy agency result length solution fridge kidney coal piece deal husband erode duke ajar glasses leaf dive";
const LENGTH: &str = "duckling enlarge acquire romp academic academic academic academic academic academic academic academic academic academic academic academic academic academic academic quantity glad seafood";
const MEMBER_THRESHOLD: &str = "duckling enlarge acquire scared agency result length solution fridge kidney coal piece deal husband erode duke ajar rhyme duckling taste";
// This is the third of FIVE with another value.
const OTHER_VALUE: &str = "academic aluminum acrobat lungs academic academic academic academic academic academic academic academic academic academic academic academic academic elephant mason ranked";
const BAD_PADDING: &str = "duckling enlarge academic academic email result length solution fridge kidney coal piece deal husband erode duke ajar music cargo fitness";
const BAD_GROUP_THRESHOLD: &str = "duckling enlarge acrobat academic agency result length solution fridge kidney coal piece deal husband erode duke ajar hawk fatal desert";

fn plan(text: &str) -> Error {
    text.parse::<Plan>().unwrap_err()
}

fn parse(line: &str) -> Error {
    shamir::parse(line).unwrap_err()
}

fn recover(lines: &[&str]) -> Error {
    shamir::recover(lines.join("\n"), &RecoverOptions::new()).unwrap_err()
}

fn expecting(fingerprint: &str) -> Error {
    shamir::recover(ONE, &RecoverOptions::new().expected(fingerprint)).unwrap_err()
}

fn repair(line: String) -> Error {
    shamir::repair(line).unwrap_err()
}

fn create(text: &str, options: &CreateOptions<'_>, random: &[u8]) -> Error {
    let secret = Secret::new(&bytes(ONE_SECRET)).unwrap();
    shamir::create(&text.parse().unwrap(), &secret, options, random).unwrap_err()
}

fn drill(lines: &[&str], after: &str) -> Error {
    Drill::new(&lines.join("\n"), &RecoverOptions::new()).after(after).next().unwrap().unwrap_err()
}

fn reissue(plan: &str, names: &str, lines: &[&str]) -> Error {
    shamir::reissue(&plan.parse().unwrap(), names, lines.join("\n")).unwrap_err()
}

fn resplit(plan: &str, lines: &[&str], random: &[u8]) -> Error {
    shamir::resplit(&plan.parse().unwrap(), lines.join("\n"), random).unwrap_err()
}

/// Gives the refusals: what a call gives, what is right, the code, and the text after the code. `tools/rust` compares what each call
/// refuses.
fn refusals() -> Vec<(Error, Error, u32, &'static str)> {
    let (none, room) = (CreateOptions::new(), &mut [0; 8]);
    let high = RecoverOptions::new().max_exponent(1);
    let counts = |member_threshold, groups| Counts { members: 0, member_threshold, groups, group_threshold: 2 };
    vec![
        (shamir::words_into("aca", room).unwrap_err(), Error::TooShort { needed: 9 }, 1, "buffer too short: 9 bytes needed"),
        (create(PLAN, &none.exponent(16), &[]), Error::OutOfRange, 2, "number out of range"),
        (
            shamir::recover(TWO.join("\n"), &high).unwrap_err(),
            Error::HighExponent { exponent: 2 },
            3,
            "exponent 2 above the maximum",
        ),
        (parse("academic academia"), Error::UnknownWord { line: None, position: 2 }, 11, "unknown word 2"),
        (recover(&["", "x"]), Error::UnknownWord { line: Some(2), position: 1 }, 11, "unknown word 1"),
        (parse(""), Error::WordCount { line: None, words: 0 }, 12, "0 words make no share"),
        (recover(&["", "", &ONE.replace("keyboard", "kidney")]), Error::BadChecksum { line: Some(3) }, 13, "bad checksum"),
        (parse(BAD_PADDING), Error::BadPadding { line: None }, 14, "bad padding"),
        (parse(BAD_GROUP_THRESHOLD), Error::GroupThreshold { line: None }, 15, "group threshold above group count"),
        (
            repair(ONE.replace("agency result length solution", "? result solution length")),
            Error::NoMnemonic,
            17,
            "no mnemonic has these words",
        ),
        (
            repair(ONE.replace("length", "lend")),
            Error::WrongWord { position: 7 },
            18,
            "bad checksum: if one word is wrong, it is word 7",
        ),
        (
            repair(ONE.replacen("duckling enlarge academic academic", "? ? ? ?", 1)),
            Error::UnreadableWords { open: 4 },
            19,
            "4 unreadable words: at most 3",
        ),
        (recover(&[ONE, TWO[0]]), Error::OtherIdentifier { line: Some(2) }, 21, "other identifier"),
        (recover(&[SIXTEEN, EXTENDABLE]), Error::OtherExtendable { line: Some(2) }, 22, "other extendable flag"),
        (recover(&[SIXTEEN, EXPONENT]), Error::OtherExponent { line: Some(2) }, 23, "other exponent"),
        (recover(&[SIXTEEN, THRESHOLD]), Error::OtherGroupThreshold { line: Some(2) }, 24, "other group threshold"),
        (recover(&[SIXTEEN, COUNT]), Error::OtherGroupCount { line: Some(2) }, 25, "other group count"),
        (recover(&[SIXTEEN, LENGTH]), Error::OtherLength { line: Some(2) }, 26, "other length"),
        (
            recover(&[SIXTEEN, MEMBER_THRESHOLD]),
            Error::OtherMemberThreshold { line: Some(2), group: 0 },
            27,
            "other member threshold in group 0",
        ),
        (
            recover(&[FIVE[2], OTHER_VALUE]),
            Error::ConflictingShare { line: Some(2), group: 0, member: 2 },
            28,
            "conflicting share 0.2",
        ),
        (recover(&["# a note"]), Error::NoShares, 29, "no shares"),
        (recover(&FIVE[3..4]), Error::Incomplete { complete: 1, required: 2 }, 30, "incomplete: 1 of 2 groups"),
        (plan(""), Error::BadPlan, 31, "bad plan"),
        (plan("2/1of1"), Error::PlanGroups, 32, "bad number of groups in plan"),
        (plan("1/1of1,3of2"), Error::PlanMembers { group: 1 }, 33, "bad number of members in plan group 1"),
        (plan("2/2of2,1of2"), Error::OneOfMany { group: 1 }, 34, "one of many in plan group 1"),
        (create(PLAN, &none.passphrase("a\x07"), &[]), Error::Passphrase { position: 2 }, 41, "passphrase byte 2 not printable"),
        (Secret::new(&[0; 15]).unwrap_err(), Error::SecretLength { bytes: 15 }, 42, "secret of 15 bytes"),
        (create(PLAN, &none, &[]), Error::RandomLength { needed: 26 }, 43, "random bytes: 26 needed"),
        (expecting(""), Error::BadFingerprint, 44, "bad fingerprint"),
        (
            recover(&MISMATCHED_SECOND),
            Error::DigestMismatch { mismatch: Mismatch::InGroup { group: 1 } },
            51,
            "digest mismatch in group 1",
        ),
        (recover(&MISMATCHED_GROUPS), Error::DigestMismatch { mismatch: Mismatch::OfGroups }, 51, "digest mismatch of groups"),
        (expecting("df41d8fe"), Error::OtherSecret, 52, "other secret"),
        (drill(&FIVE, ""), Error::BadCursor, 61, "bad cursor"),
        (drill(&FIVE, "0.1"), Error::NotAQuorum, 62, "cursor is no quorum"),
        (reissue(PLAN, "0.1+0.0", &["x"]), Error::BadNames, 63, "bad list of names"),
        (reissue(PLAN, "0.3", &FIVE), Error::NotInPlan { group: 0, member: 3 }, 64, "name 0.3 not in plan"),
        (reissue("2/3of3,1of1,1of1", "0.2", &FIVE), Error::OtherPlan, 65, "other plan"),
        (
            reissue(PLAN, "0.1", &FIVE[3..]),
            Error::Undetermined { name: Name { group: 0, member: 1 }, counts: counts(2, 2) },
            66,
            "cannot tell 0.1: 0 of 2 members, 2 of 2 other groups",
        ),
        (
            reissue(PLAN, "2.0", &FIVE[..2]),
            Error::Undetermined { name: Name { group: 2, member: 0 }, counts: counts(1, 1) },
            66,
            "cannot tell 2.0: 0 of 1 members, 1 of 2 other groups",
        ),
        (resplit(PLAN, &FIVE, &[]), Error::NotExtendable, 67, "backup isn't extendable"),
        (resplit("1of1", &EXTENDABLE_TWO, &[0x23, 0x6a]), Error::SameIdentifier, 68, "same identifier"),
        (recover(&[&"#".repeat(1025)]), Error::LineTooLong { line: Some(1) }, 71, "line too long"),
    ]
}

#[test]
fn each_refusal_has_its_details_and_its_text() {
    for (given, right, code, text) in refusals() {
        assert_eq!((given, given.code()), (right, code));
        let place = given.line().map_or(String::new(), |line| format!("line {line}: "));
        assert_eq!(given.to_string(), format!("{place}{code} {text}"));
    }
}

/// The header has the codes in lines such as `    SHAMIR_E_TOO_SHORT = 1,`.
#[test]
fn each_code_of_the_header_is_caused_above() {
    let header = include_str!(env!("SHAMIR_HEADER"));
    let codes = header
        .lines()
        .filter_map(|line| line.strip_prefix("    SHAMIR_E_")?.split_once(" = ")?.1.split([',', ' ']).next()?.parse().ok());
    // Only the library as plain C gives 4.
    let caused: BTreeSet<u32> = refusals().iter().map(|(_, _, code, _)| *code).chain([4]).collect();
    assert_eq!(codes.collect::<BTreeSet<u32>>(), caused);
}

#[test]
fn a_refusal_is_an_error_of_rust() {
    let boxed: Box<dyn std::error::Error + Send + Sync> = plan("").into();
    assert_eq!(boxed.to_string(), "31 bad plan");
}

/// A caller can make errors with details that no call gives.
#[test]
fn each_error_has_a_text_of_some_kind() {
    let (most, line) = (u64::MAX, Some(u64::MAX));
    let name = Name { group: 255, member: 255 };
    let counts = Counts { members: 255, member_threshold: 255, groups: 255, group_threshold: 255 };
    for error in [
        Error::TooShort { needed: most },
        Error::HighExponent { exponent: 255 },
        Error::UnknownWord { line, position: most },
        Error::WordCount { line, words: most },
        Error::UnreadableWords { open: most },
        Error::WrongWord { position: most },
        Error::OtherMemberThreshold { line, group: 255 },
        Error::ConflictingShare { line, group: 255, member: 255 },
        Error::Incomplete { complete: 255, required: 255 },
        Error::PlanMembers { group: 255 },
        Error::OneOfMany { group: 255 },
        Error::Passphrase { position: most },
        Error::SecretLength { bytes: most },
        Error::RandomLength { needed: most },
        Error::DigestMismatch { mismatch: Mismatch::InGroup { group: 255 } },
        Error::NotInPlan { group: 255, member: 255 },
        Error::Undetermined { name, counts },
        Error::Other { code: u32::MAX, line, first: most, second: most },
    ] {
        let place = error.line().map_or(String::new(), |line| format!("line {line}: "));
        let told = error.to_string();
        assert!(told.starts_with(&format!("{place}{} ", error.code())) && !told.ends_with(' '), "{told}");
    }
}

#[test]
fn a_refusal_of_a_later_library_keeps_its_numbers() {
    let other = Error::Other { code: 99, line: Some(3), first: 1, second: 2 };
    assert_eq!((other.code(), other.line(), other.to_string()), (99, Some(3), "line 3: 99 unknown answer".into()));
}
