//! How the calls read and answer in Rust. `tools/rust` compares the worked examples of all languages.
#![cfg(feature = "alloc")]
mod given;

use given::{
    EXTENDABLE, FIVE, FIVE_QUORUMS, MISMATCHED, MISMATCHED_GROUPS, MISMATCHED_SECOND, ONE, ONE_SECRET, PLAN, SPLIT_ANEW, TWO,
    TWO_RANDOM, TWO_SECRET, bytes, digits,
};
use shamir::{CreateOptions, DecryptOptions, Drill, EncryptedSecret, Error, Found, Mismatch};
use shamir::{Mnemonics, Name, Outcome, Plan, RecoverOptions, Secret};
use shamir::{
    create, create_from_encrypted_with, create_into, create_with, decrypt, decrypt_rounds, encrypted, fingerprint, parse,
    recover, reissue, resplit_with, status,
};

/// The fingerprint of the secret of `ONE`. It is the HMAC-SHA256 by another program.
const ONE_FINGERPRINT: &str = "df41d8fe";

fn trezor() -> RecoverOptions<'static> {
    RecoverOptions::new().passphrase("TREZOR")
}

fn plan(text: &str) -> Plan {
    text.parse().unwrap()
}

fn secret(digits: &str) -> Secret {
    Secret::new(&bytes(digits)).unwrap()
}

fn of_two() -> CreateOptions<'static> {
    CreateOptions::new().passphrase("TREZOR").exponent(2).extendable(false)
}

fn outcomes(drill: Drill<'_>) -> Vec<Outcome> {
    drill.collect::<Result<_, Error>>().unwrap()
}

#[test]
fn the_room_of_a_caller_gets_the_same() {
    let (plan, secret, random) = (plan("2of3"), secret(TWO_SECRET), bytes(TWO_RANDOM));
    let made = create(&plan, &secret, &of_two(), &random).unwrap();
    let mut room = [7; 1000];
    assert_eq!(create_into(&plan, &secret, &of_two(), &random, &mut room), Ok(made.as_str()));
    assert!(room[made.as_str().len()..].iter().all(|&byte| byte == 7));

    let mut short = [7; 400];
    let needed = made.as_str().len() as u64;
    assert_eq!(create_into(&plan, &secret, &of_two(), &random, &mut short), Err(Error::TooShort { needed }));
    assert_eq!(short, [7; 400]);
}

#[test]
fn random_bytes_are_drawn_as_many_as_are_needed() {
    let (plan, secret, random) = (plan("2of3"), secret(TWO_SECRET), bytes(TWO_RANDOM));
    let mut asked = Vec::new();
    let made = create_with::<Error>(&plan, &secret, &of_two(), |room| {
        asked.push(room.len());
        room.copy_from_slice(&random);
        Ok(())
    });
    assert_eq!(asked, [14]);
    assert_eq!(made.unwrap().iter().nth(2), Some(TWO[0]));
}

#[derive(Debug, PartialEq)]
enum Own {
    NoRandom,
    Refused(Error),
}

impl From<Error> for Own {
    fn from(error: Error) -> Own {
        Own::Refused(error)
    }
}

#[test]
fn a_closure_that_fails_ends_the_call() {
    let none = CreateOptions::new();
    let failed = create_with(&plan("2of3"), &secret(TWO_SECRET), &none, |_| Err(Own::NoRandom));
    assert_eq!(failed.unwrap_err(), Own::NoRandom);
    assert_eq!(Secret::draw(16, |_| Err(Own::NoRandom)).unwrap_err(), Own::NoRandom);
    let mut is_called = false;
    let refused = Secret::draw(15, |_| {
        is_called = true;
        Ok::<(), Own>(())
    });
    assert_eq!((refused.unwrap_err(), is_called), (Own::Refused(Error::SecretLength { bytes: 15 }), false));
}

#[test]
fn a_plan_is_read_and_built() {
    assert_eq!(Plan::builder(2).group(2, 3).group(1, 1).group(1, 1).build(), Ok(plan(PLAN)));
    assert_eq!((plan(PLAN).to_string(), format!("{:?}", plan(PLAN))), (PLAN.into(), format!("Plan({PLAN})")));
    let longest = ["16/16of16", &",16of16".repeat(15)].concat();
    assert_eq!(plan(&longest).as_str(), longest);
    let builder = |groups| (0..groups).fold(Plan::builder(1), |plan, _| plan.group(1, 1));
    assert!(builder(16).build().is_ok());
    assert_eq!(builder(17).build(), Err(Error::PlanGroups));
    assert_eq!(builder(0).build(), Err(Error::BadPlan));
    assert_eq!(builder(1000).group(0, 1).build(), Err(Error::BadPlan));
    assert_eq!(plan("2of3").random_needed(16), Ok(14));
    assert_eq!(plan("2of3").random_needed(usize::MAX), Err(Error::SecretLength { bytes: u64::MAX }));
}

#[test]
fn an_encrypted_secret_is_not_shown() {
    let kept = encrypted(EXTENDABLE.join("\n")).unwrap();
    assert_eq!(kept, extendable_secret());
    assert!(!format!("{kept:?}").contains(&format!("{:?}", kept.value.as_bytes())[1..9]));
}

#[test]
fn options_of_a_decryption_can_be_set_in_any_order() {
    let (kept, options) = (encrypted(ONE).unwrap(), DecryptOptions::new());
    for options in [options.expected("DF41d8fe").passphrase("TREZOR"), options.passphrase("TREZOR").expected("DF41d8fe")] {
        assert_eq!(decrypt(&kept, &options).unwrap(), secret(ONE_SECRET));
        assert_eq!(decrypt(&kept, &options.expected("df41d8ff")).unwrap_err(), Error::OtherSecret);
    }
}

#[test]
fn rounds_are_told_and_stopped() {
    let (kept, mut told) = (encrypted(FIVE[3..].join("\n")).unwrap(), vec![]);
    let found = decrypt_rounds(&kept, "TREZOR", |undone| {
        told.push(undone);
        true
    });
    assert_eq!((found.unwrap(), told.as_slice()), (Some(secret(ONE_SECRET)), &[1, 2, 3][..]));
    for most in 1..4 {
        assert_eq!(decrypt_rounds(&kept, "TREZOR", |undone| undone < most).unwrap(), None);
    }
}

#[test]
fn every_quorum_is_drilled() {
    let lines = FIVE.join("\n");
    let found = outcomes(Drill::new(&lines, &trezor()));
    let names: Vec<&str> = found.iter().map(|outcome| outcome.names.as_str()).collect();
    assert_eq!(names, FIVE_QUORUMS);
    assert!(found.iter().all(|outcome| outcome.found == Found::Secret(secret(ONE_SECRET))));
    assert_eq!(found[6].names.iter().collect::<Vec<_>>(), [Name { group: 1, member: 0 }, Name { group: 2, member: 0 }]);
}

#[test]
fn a_drill_that_has_begun_can_be_changed() {
    let lines = FIVE.join("\n");
    let names = |drill: Drill<'_>| outcomes(drill).iter().map(|outcome| outcome.names.to_string()).collect::<Vec<_>>();
    for given in 0..=7 {
        let begun = || {
            let mut drill = Drill::new(&lines, &trezor());
            assert_eq!(drill.by_ref().take(given).count(), given);
            drill
        };
        let rest = outcomes(begun().fingerprints());
        assert!(rest.iter().map(|outcome| outcome.names.as_str()).eq(FIVE_QUORUMS[given..].iter().copied()));
        assert!(rest.iter().all(|outcome| outcome.found == Found::Fingerprint(fingerprint(&secret(ONE_SECRET)))));
        assert_eq!(names(begun().after(FIVE_QUORUMS[1])), FIVE_QUORUMS[2..]);
        assert_eq!(names(begun().after(FIVE_QUORUMS[6])), [""; 0]);
    }
}

#[test]
fn a_drill_gives_fingerprints() {
    assert_eq!(fingerprint(&secret(ONE_SECRET)).as_str(), ONE_FINGERPRINT);
    let lines = FIVE.join("\n");
    let right = Found::Fingerprint(fingerprint(&secret(ONE_SECRET)));
    let found = outcomes(Drill::new(&lines, &trezor()).fingerprints());
    assert!(found.len() == 7 && found.iter().all(|outcome| outcome.found == right));
    assert!(!format!("{found:?}").contains(ONE_FINGERPRINT));
}

#[test]
fn a_drill_says_what_is_expected() {
    let lines = FIVE.join("\n");
    let found = |options: RecoverOptions<'_>| {
        let found = |drill: Drill<'_>| outcomes(drill).into_iter().map(|outcome| outcome.found).collect::<Vec<_>>();
        let plain = found(Drill::new(&lines, &options));
        assert_eq!(found(Drill::new(&lines, &options).fingerprints()), plain);
        plain
    };
    let as_expected: Vec<Found> = (0..7).map(|_| Found::AsExpected).collect();
    let other_secret: Vec<Found> = (0..7).map(|_| Found::OtherSecret).collect();
    assert_eq!(found(trezor().expected(ONE_FINGERPRINT)), as_expected);
    assert_eq!(found(trezor().expected(&ONE_FINGERPRINT.to_uppercase())), as_expected);
    assert_eq!(found(trezor().expected(&fingerprint(&secret(ONE_SECRET)))), as_expected);
    assert_eq!(found(trezor().expected("df41d8ff")), other_secret);
    assert_eq!(found(RecoverOptions::new().expected(ONE_FINGERPRINT)), other_secret);

    let lines = MISMATCHED_GROUPS.join("\n");
    let outcome = &outcomes(Drill::new(&lines, &trezor().expected(ONE_FINGERPRINT)))[0];
    assert_eq!(outcome.found, Found::Mismatch(Mismatch::OfGroups));
}

#[test]
fn a_mismatch_is_an_outcome() {
    let in_group = |group| Mismatch::InGroup { group };
    for (lines, mismatch) in [
        (MISMATCHED.join("\n"), in_group(0)),
        (MISMATCHED_SECOND.join("\n"), in_group(1)),
        (MISMATCHED_GROUPS.join("\n"), Mismatch::OfGroups),
    ] {
        for drill in [Drill::new(&lines, &trezor()), Drill::new(&lines, &trezor()).fingerprints()] {
            assert_eq!(outcomes(drill)[0].found, Found::Mismatch(mismatch));
        }
    }
}

#[test]
fn a_drill_in_many_parts_lists_each_quorum_once() {
    // 12,870 quorums of eight names take more than eight rooms of 64 KiB.
    let plan = plan("8of16");
    let random = vec![9; plan.random_needed(16).unwrap()];
    let made = create(&plan, &secret(ONE_SECRET), &CreateOptions::new(), &random).unwrap();
    let mut drill = Drill::new(&made, &RecoverOptions::new());
    let names: Vec<Vec<Name>> = drill.by_ref().map(|outcome| outcome.unwrap().names.iter().collect()).collect();
    assert_eq!(names.len(), 12870);
    assert!(names.is_sorted_by(|one, next| one < next));
    assert!(drill.next().is_none());
}

/// Each text that the library writes about this backup is about as long as one can be.
#[test]
fn the_largest_backup_has_room() {
    let plan = plan(&["16/16of16", &",16of16".repeat(15)].concat());
    let secret = Secret::new(&std::array::from_fn::<u8, 128, _>(|place| place as u8)).unwrap();
    let (options, random) = (RecoverOptions::new(), vec![7; plan.random_needed(128).unwrap()]);
    let made = create(&plan, &secret, &CreateOptions::new(), &random).unwrap();
    let names: Vec<Name> = (0..16).flat_map(|group| (0..16).map(move |member| Name { group, member })).collect();
    let list = names.iter().map(Name::to_string).collect::<Vec<_>>().join("+");
    assert_eq!((made.len(), list.len()), (256, 1215));
    assert!(names.is_sorted_by(|one, next| one < next));

    let found = outcomes(Drill::new(&made, &options));
    assert_eq!((found.len(), &found[0].found, found[0].names.as_str()), (1, &Found::Secret(secret.clone()), list.as_str()));
    assert!(found[0].names.iter().eq(names.iter().copied()));
    let status = status(&made).unwrap();
    assert_eq!((status.complete, status.required, status.groups().len()), (16, 16, 16));
    assert!(status.groups().iter().flat_map(|group| group.names()).eq(names));
    assert_eq!(reissue(&plan, &list, &made).unwrap().as_str(), made.as_str());
}

#[test]
fn a_drill_ends_after_its_error() {
    let options = RecoverOptions::new().passphrase("TREZOR");
    let mut drill = Drill::new("academia", &options);
    assert_eq!(format!("{drill:?}"), "Drill { options: RecoverOptions { passphrase: .., max_exponent: 15, expected: .. }, .. }");
    assert_eq!(drill.next().unwrap().unwrap_err(), Error::UnknownWord { line: Some(1), position: 1 });
    assert!(drill.next().is_none());
    assert!(drill.next().is_none());
}

/// The closure draws others for bytes that give the old identifier, but not without end.
#[test]
fn random_bytes_of_a_split_are_drawn_again() {
    let (lines, random) = (EXTENDABLE.join("\n"), std::array::from_fn::<u8, 26, _>(|place| place as u8));
    let split = |same| {
        let mut drawn = 0;
        let made = resplit_with::<Error>(&plan(PLAN), &lines, |room| {
            drawn += 1;
            room.copy_from_slice(&random);
            if drawn <= same {
                room[..2].copy_from_slice(&[0x23, 0x6a]);
            }
            Ok(())
        });
        (drawn, made)
    };
    for same in [0, 1, 9] {
        let (drawn, made) = split(same);
        assert_eq!(drawn, same + 1);
        assert!(made.unwrap().iter().eq(SPLIT_ANEW));
    }
    let (drawn, made) = split(99);
    assert_eq!((drawn, made.unwrap_err()), (10, Error::SameIdentifier));
    let failed = resplit_with(&plan(PLAN), &lines, |_| Err(Error::NoMemory));
    assert_eq!(failed.unwrap_err(), Error::NoMemory);
    let refused = resplit_with::<Error>(&plan(PLAN), ONE, |_| panic!("nothing is drawn"));
    assert_eq!(refused.unwrap_err(), Error::NotExtendable);
}

/// The encrypted secret of the two mnemonics of `EXTENDABLE`. Another program computed it.
fn extendable_secret() -> EncryptedSecret {
    EncryptedSecret { id: 0x236a, extendable: true, exponent: 0, value: secret("644c905b0c4da21692f06fff3ed8b3e1") }
}

#[test]
fn random_bytes_for_an_encrypted_secret_are_drawn_again() {
    let (kept, random) = (extendable_secret(), std::array::from_fn::<u8, 26, _>(|place| place as u8));
    let mut drawn = 0;
    let made = create_from_encrypted_with::<Error>(&plan(PLAN), &kept, |room| {
        drawn += 1;
        room.copy_from_slice(&random);
        if drawn == 1 {
            room[..2].copy_from_slice(&[0x23, 0x6a]);
        }
        Ok(())
    });
    assert!(made.unwrap().iter().eq(SPLIT_ANEW));
    assert_eq!(drawn, 2);
    let fixed = EncryptedSecret { extendable: false, ..extendable_secret() };
    let refused = create_from_encrypted_with::<Error>(&plan(PLAN), &fixed, |_| panic!("nothing is drawn"));
    assert_eq!(refused.unwrap_err(), Error::NotExtendable);
}

#[test]
fn a_status_tells_the_members() {
    let found = status([FIVE[2], FIVE[0], FIVE[2], FIVE[3]].join("\n")).unwrap();
    assert_eq!((found.complete, found.required, found.is_enough()), (2, 2, true));
    let groups: Vec<_> = found.groups().iter().map(|it| (it.group, it.threshold, it.members().collect::<Vec<_>>())).collect();
    assert_eq!(groups, [(0, 2, vec![0, 2]), (1, 1, vec![0])]);
    let names: Vec<String> = found.groups()[0].names().map(|name| name.to_string()).collect();
    assert_eq!(names, ["0.0", "0.2"]);
    assert!(format!("{found:?}").contains("GroupStatus { group: 0, threshold: 2, members: [0, 2] }"));
}

#[test]
fn a_mnemonic_is_read() {
    let share = parse(format!("\t{}\r", FIVE[4].to_uppercase())).unwrap();
    assert_eq!(
        (share.group_index, share.group_threshold, share.group_count, share.member_index, share.member_threshold),
        (2, 2, 3, 0, 1)
    );
    assert_eq!((share.name(), &share), (Name { group: 2, member: 0 }, &FIVE[4].parse().unwrap()));
    assert!(!format!("{share:?}").contains(&format!("{:?}", share.value.as_bytes())[1..9]));
}

#[test]
fn mnemonics_are_collected_from_lines() {
    let lines: Mnemonics = TWO.iter().map(|line| format!("{line}\n")).collect();
    assert_eq!((lines.len(), lines.is_empty(), lines.as_str()), (2, false, format!("{}\n{}\n", TWO[0], TWO[1]).as_str()));
    assert_eq!(digits(recover(&lines, &trezor()).unwrap().as_bytes()), TWO_SECRET);
    assert!((&lines).into_iter().eq(TWO));
    assert_eq!(format!("{lines:?}"), "Mnemonics(2)");
}

/// As the packages for Python and JavaScript do, the crate refuses an item that would be several lines.
#[test]
fn an_item_is_one_line() {
    for (items, line) in [
        (vec![TWO.join("\n")], 1),
        (vec![TWO[0].into(), format!("{}\n\n", TWO[1])], 2),
        (vec![TWO[0].into(), TWO[1].into(), format!("# a note\n{ONE}\n")], 3),
        (vec!["\n\n".into()], 1),
    ] {
        let lines: Mnemonics = items.iter().collect();
        let refused = Error::UnknownWord { line: Some(line), position: 1 };
        assert_eq!((lines.len(), recover(&lines, &trezor()).unwrap_err()), (items.len(), refused));
        assert_eq!(status(&lines).unwrap_err(), refused);
    }
}

#[test]
fn the_library_has_the_version_of_the_crate() {
    assert_eq!(shamir::version().to_string(), env!("CARGO_PKG_VERSION"));
}

#[test]
fn values_can_be_sent_to_threads_and_shared() {
    fn check<T: Send + Sync + 'static>() {}
    check::<Secret>();
    check::<Mnemonics>();
    check::<Drill<'static>>();
    check::<Outcome>();
    check::<Error>();
}

#[test]
fn calls_run_side_by_side() {
    let lines = TWO.join("\n");
    std::thread::scope(|scope| {
        for _ in 0..4 {
            scope.spawn(|| assert_eq!(digits(recover(&lines, &trezor()).unwrap().as_bytes()), TWO_SECRET));
        }
    });
}
