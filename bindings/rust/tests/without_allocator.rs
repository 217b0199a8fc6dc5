//! The calls that need no allocator. These tests run without the feature `alloc` too.
mod given;

use given::{EXTENDABLE, FIVE, FOURTH, ONE, ONE_SECRET, SPLIT_ANEW, TWO, TWO_RANDOM, TWO_SECRET, bytes};
use shamir::{CreateOptions, DecryptOptions, Error, Plan, RecoverOptions, Secret, Share, ShareFields};
use shamir::{REPAIRED_BYTES_MAX, create_from_encrypted_into, create_into, reissue_into, repair_into, resplit_into, words_into};
use shamir::{decrypt, decrypt_rounds, encrypted, fingerprint, judge, parse, recover, status};

fn plan(text: &str) -> Plan {
    text.parse().unwrap()
}

#[test]
fn a_published_backup_is_created_and_recovered() {
    let (secret, random) = (Secret::new(&bytes(TWO_SECRET)).unwrap(), bytes(TWO_RANDOM));
    let options = CreateOptions::new().passphrase("TREZOR").exponent(2).extendable(false);
    let mut room = [7; 1000];
    let text = create_into(&plan("2of3"), &secret, &options, &random, &mut room).unwrap();
    assert_eq!((text.lines().next(), text.lines().last(), text.lines().count()), (Some(TWO[1]), Some(TWO[0]), 3));
    assert_eq!(recover(text, &RecoverOptions::new().passphrase("TREZOR")), Ok(secret));
    let written = text.len();
    assert!(room[written..].iter().all(|&byte| byte == 7));
}

#[test]
fn an_encrypted_secret_is_decrypted() {
    let kept = encrypted(TWO.join("\n")).unwrap();
    assert_eq!(kept.value.as_bytes(), bytes("cdc017fddc829e791b1371780be0605a"));
    let options = DecryptOptions::new().passphrase("TREZOR").expected("5f5702dc");
    assert_eq!(decrypt(&kept, &options), Ok(Secret::new(&bytes(TWO_SECRET)).unwrap()));
    assert_eq!(decrypt_rounds(&kept, "TREZOR", |_| true), Ok(Some(Secret::new(&bytes(TWO_SECRET)).unwrap())));
    assert_eq!(encrypted(TWO[0]), Err(Error::Incomplete { complete: 0, required: 1 }));
}

#[test]
fn a_room_that_is_too_short_is_unchanged() {
    let mut room = [7; 130];
    let (one, needed) = (plan("1of1"), ONE.len() as u64 + 1);
    assert_eq!(reissue_into(&one, "0.0", ONE, &mut room), Err(Error::TooShort { needed }));
    assert_eq!(repair_into(ONE, &mut room), Err(Error::TooShort { needed }));
    assert_eq!(room, [7; 130]);
    assert_eq!(words_into("academic", &mut []), Err(Error::TooShort { needed: 9 }));
}

#[test]
fn lost_and_unreadable_mnemonics_are_written() {
    let mut room = [0; REPAIRED_BYTES_MAX];
    assert_eq!(reissue_into(&plan("2/2of4,1of1,1of1"), "0.3", FIVE.join("\n"), &mut room), Ok(format!("{FOURTH}\n").as_str()));
    assert_eq!(repair_into(ONE.replace("duckling", "d?"), &mut room), Ok(format!("{ONE}\n").as_str()));
    assert_eq!(words_into("Emp", &mut room), Ok("emperor\nemphasis\nemployer\nempty\n"));
    assert_eq!(words_into("q!", &mut room), Ok(""));
}

#[test]
fn an_extendable_backup_is_split_anew() {
    let (plan, lines) = (plan("2/2of3,1of1,1of1"), EXTENDABLE.join("\n"));
    let random: [u8; 26] = std::array::from_fn(|place| place as u8);
    let mut room = [7; 1000];
    let written = resplit_into(&plan, &lines, &random, &mut room).map(|text| {
        assert!(text.lines().eq(SPLIT_ANEW));
        text.len()
    });
    let written = written.unwrap();
    assert!(room[written..].iter().all(|&byte| byte == 7));
    let mut short = vec![7; written - 1];
    assert_eq!(resplit_into(&plan, &lines, &random, &mut short), Err(Error::TooShort { needed: written as u64 }));
    let kept = encrypted(&lines).unwrap();
    assert!(create_from_encrypted_into(&plan, &kept, &random, &mut room).unwrap().lines().eq(SPLIT_ANEW));
    assert_eq!(create_from_encrypted_into(&plan, &kept, &random, &mut short), Err(Error::TooShort { needed: written as u64 }));
    assert!(short.iter().all(|&byte| byte == 7));
}

#[test]
fn mnemonics_are_read() {
    let share: Share = ONE.parse().unwrap();
    assert_eq!((share.id, share.exponent, share.name().to_string()), (7945, 0, "0.0".into()));
    let fields = ShareFields::from(&share);
    assert_eq!(parse(ONE), Ok(share));
    assert!(status(ONE).unwrap().is_enough());
    let judgement = judge(FIVE.join("\n"), ONE).unwrap();
    assert_eq!((judgement.share, judgement.again), (fields, false));
    assert_eq!(status(FIVE.join("\n")).unwrap().groups().len(), 3);
    // Another program computed this fingerprint.
    assert_eq!(fingerprint(&Secret::new(&bytes(ONE_SECRET)).unwrap()).to_string(), "df41d8fe");
}

#[test]
fn secrets_are_equal_if_their_bytes_are() {
    let secret = |bytes: &[u8]| Secret::new(bytes).unwrap();
    let bytes: [u8; 128] = std::array::from_fn(|place| place as u8);
    assert_eq!(secret(&bytes), secret(&bytes));
    assert_eq!(secret(&bytes).clone().as_bytes(), bytes);
    assert_ne!(secret(&[0; 16]), secret(&[0; 18]));
    for place in 0..128 {
        let mut other = bytes;
        other[place] ^= 0x80;
        assert_ne!(secret(&bytes), secret(&other));
    }
    assert_eq!(format!("{:?}", secret(&bytes)), "Secret(128 bytes)");
}

#[test]
fn secrets_have_the_lengths_of_the_standard() {
    let accepted: Vec<usize> = (0..200).filter(|&bytes| Secret::new(&vec![1; bytes]).is_ok()).collect();
    assert_eq!(accepted, (16..=128).step_by(2).collect::<Vec<_>>());
}

#[test]
fn options_are_passed_on() {
    let (secret, random) = (Secret::new(&[3; 16]).unwrap(), [1, 2]);
    let made = |options: CreateOptions<'_>| {
        let mut room = [0; 200];
        parse(create_into(&plan("1of1"), &secret, &options, &random, &mut room).unwrap().trim_end()).unwrap()
    };
    let none = CreateOptions::new();
    // These are the defaults of the reference implementation.
    assert_eq!((made(none).exponent, made(none).extendable), (1, true));
    assert_eq!((made(none.exponent(2)).exponent, made(none.extendable(false)).extendable), (2, false));
    assert_ne!(made(none).value, made(none.passphrase("a")).value);
    // Options can be set in any order.
    let all = made(none.passphrase("a").exponent(1).extendable(true));
    assert_eq!((all.exponent, all.extendable), (1, true));
    for options in [none.extendable(true).exponent(1).passphrase("a"), none.exponent(1).passphrase("a").extendable(true)] {
        assert_eq!(made(options), all);
    }
    let lines = TWO.join("\n");
    let noted = fingerprint(&Secret::new(&bytes(TWO_SECRET)).unwrap());
    let expected = RecoverOptions::new().expected(&noted);
    for options in [expected.passphrase("TREZOR").max_exponent(2), expected.max_exponent(2).passphrase("TREZOR")] {
        assert_eq!(recover(&lines, &options), Ok(Secret::new(&bytes(TWO_SECRET)).unwrap()));
        assert_eq!(recover(&lines, &options.passphrase("trezor")), Err(Error::OtherSecret));
        assert_eq!(recover(&lines, &options.max_exponent(1)), Err(Error::HighExponent { exponent: 2 }));
    }
    for max_exponent in 0..=2 {
        let options = RecoverOptions::new();
        let options =
            [options.passphrase("TREZOR").max_exponent(max_exponent), options.max_exponent(max_exponent).passphrase("TREZOR")];
        for found in options.map(|options| recover(&lines, &options)) {
            let right = Secret::new(&bytes(TWO_SECRET)).unwrap();
            assert_eq!(found, if max_exponent < 2 { Err(Error::HighExponent { exponent: 2 }) } else { Ok(right) });
        }
    }
}
