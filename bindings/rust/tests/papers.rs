//! Mnemonics that are judged beside others, and kept apart by their backups.
#![cfg(feature = "alloc")]
mod given;

use given::{CONFLICTING, FIVE, ONE, ONE_SECRET, TWO, digits};
use shamir::{
    Drill, Error, Found, Judgement, Mismatch, Mnemonics, Name, Papers, RecoverOptions, Recovered, ShareFields, judge, parse,
    recover, repair, status,
};

/// The identifiers of `ONE`, of `TWO` and of `FIVE`.
const IDS: [u16; 3] = [7945, 25653, 1];

fn trezor() -> RecoverOptions<'static> {
    RecoverOptions::new().passphrase("TREZOR")
}

#[test]
fn a_mnemonic_is_judged_beside_others() {
    let Judgement { share, again, status: found, .. } = judge(FIVE[..3].join("\n"), FIVE[4]).unwrap();
    assert_eq!((share, again), (ShareFields::from(&parse(FIVE[4]).unwrap()), false));
    assert_eq!((share.id, share.name()), (1, Name { group: 2, member: 0 }));
    assert_eq!(found, status([&FIVE[..3], &FIVE[4..]].concat().join("\n")).unwrap());
    assert!(found.is_enough());

    let found = judge(FIVE.join("\n"), FIVE[4].to_uppercase()).unwrap();
    assert!(found.again && found.status == status(FIVE.join("\n")).unwrap());
    let found = judge(FIVE.join("\n"), ONE).unwrap();
    assert_eq!((found.share.id, found.again, found.status), (7945, false, status(ONE).unwrap()));
}

#[test]
fn a_mnemonic_that_cannot_be_taken_has_no_line() {
    let other = TWO[0].replace("armed", "acid");
    assert_eq!(judge(&other, &other).unwrap_err(), Error::BadChecksum { line: None });
    assert_eq!(judge(format!("{ONE}\n{other}"), FIVE[0]).unwrap_err(), Error::BadChecksum { line: Some(2) });
    let conflict = |line| Error::ConflictingShare { line, group: 0, member: 0 };
    assert_eq!(judge(format!("{ONE}\n{}", FIVE[0]), CONFLICTING).unwrap_err(), conflict(None));
    assert_eq!(judge(format!("{}\n{CONFLICTING}", FIVE[0]), FIVE[1]).unwrap_err(), conflict(Some(2)));
    assert!(judge(format!("{}\n{CONFLICTING}", FIVE[0]), ONE).is_ok());
}

#[test]
fn papers_are_kept_by_their_backup() {
    let mut papers = Papers::new();
    let given = [ONE, TWO[0], FIVE[3], FIVE[3], TWO[1], FIVE[0], FIVE[1]];
    let again: Vec<bool> = given.iter().map(|paper| papers.add(paper).unwrap().again).collect();
    assert_eq!(again, [false, false, false, true, false, false, false]);
    assert_eq!(papers.ids().collect::<Vec<_>>(), IDS);
    let lines = IDS.map(|id| papers.lines(id).iter().collect::<Vec<_>>());
    assert_eq!(lines, [vec![ONE], TWO.to_vec(), vec![FIVE[3], FIVE[0], FIVE[1]]]);
    assert!(papers.lines(2).is_empty());
    assert_eq!(format!("{papers:?}"), "{7945: Mnemonics(1), 25653: Mnemonics(2), 1: Mnemonics(3)}");

    // The lines of a backup are ready for other calls.
    assert_eq!(digits(recover(papers.lines(1), &trezor()).unwrap().as_bytes()), ONE_SECRET);
    let expected = trezor().expected("df41d8fe");
    assert!(Drill::new(papers.lines(1), &expected).all(|outcome| outcome.unwrap().found == Found::AsExpected));
}

#[test]
fn papers_are_enough_for_the_backup_of_the_last_one() {
    let (mut papers, noted) = (Papers::new(), trezor().expected("df41d8fe"));
    assert_eq!((papers.is_enough(), papers.recover(&noted)), (false, Err(Error::NoShares)));
    for (paper, told, is_enough) in [
        (FIVE[3], "groups 1 of 2\ngroup 1 members 1 of 1 1.0", false),
        (ONE, "groups 1 of 1\ngroup 0 members 1 of 1 0.0", true),
        ("academic x", "11 unknown word 2", true),
        (TWO[0], "groups 0 of 1\ngroup 0 members 1 of 2 0.2", false),
        (FIVE[4], "groups 2 of 2\ngroup 1 members 1 of 1 1.0\ngroup 2 members 1 of 1 2.0", true),
        (ONE, "again\ngroups 1 of 1\ngroup 0 members 1 of 1 0.0", true),
    ] {
        assert_eq!((papers.add_and_tell(paper).as_str(), papers.is_enough()), (told, is_enough));
        match papers.recover(&noted) {
            Ok(found) => assert!(is_enough && digits(found.secret.as_bytes()) == ONE_SECRET && found.failed.is_empty()),
            Err(error) => assert!(!is_enough && error.code() == 30),
        }
    }
    assert_eq!(papers.recover(&noted.passphrase("x")), Err(Error::OtherSecret));
}

#[test]
fn a_wrong_paper_does_not_hide_what_the_others_give() {
    let (mut papers, noted) = (Papers::new(), trezor().expected("df41d8fe"));
    for paper in [ONE, CONFLICTING, FIVE[1], FIVE[3]] {
        papers.add(paper).unwrap();
    }
    assert_eq!(papers.recover(&noted), Err(Error::DigestMismatch { mismatch: Mismatch::InGroup { group: 0 } }));
    papers.add(format!("{}\n", FIVE[4])).unwrap();
    let names = |group, members: &[u8]| members.iter().map(|&member| Name { group, member }).collect::<Vec<_>>();
    let told = |found: &Recovered| found.failed.iter().map(|names| names.to_string()).collect::<Vec<_>>().join(" ");
    let found = papers.recover(&noted).unwrap();
    assert_eq!((digits(found.secret.as_bytes()).as_str(), told(&found).as_str()), (ONE_SECRET, "0.0+0.1+1.0 0.0+0.1+2.0"));
    assert_eq!(found.doubtful, names(0, &[0, 1]));
    assert_eq!(papers.recover(&trezor().expected("00000000")), Err(Error::OtherSecret));

    papers.add(FIVE[2]).unwrap();
    let found = papers.recover(&trezor()).unwrap();
    assert_eq!(told(&found), "0.0+0.1+1.0 0.0+0.1+2.0 0.0+0.2+1.0 0.0+0.2+2.0");
    assert_eq!(found.doubtful, names(0, &[0]));
}

#[test]
fn a_paper_is_taken_out() {
    let (mut papers, noted) = (Papers::new(), trezor().expected("df41d8fe"));
    for paper in [CONFLICTING, ONE, FIVE[1], FIVE[3]] {
        papers.add(paper).unwrap();
    }
    let of = |group, member| Name { group, member };
    assert_eq!((papers.remove(1, of(0, 2)), papers.remove(2, of(0, 0)), papers.is_enough()), (Ok(false), Ok(false), true));
    assert_eq!(papers.add(FIVE[0]).unwrap_err().code(), 28);
    assert_eq!((papers.remove(1, of(0, 0)), papers.is_enough()), (Ok(true), false));
    assert!(papers.lines(1).iter().eq([FIVE[1], FIVE[3]]));
    assert!(!papers.add(FIVE[0]).unwrap().again && papers.recover(&noted).unwrap().failed.is_empty());
    assert_eq!((papers.remove(7945, of(0, 0)), papers.is_enough(), papers.ids().collect::<Vec<_>>()), (Ok(true), true, vec![1]));
    for name in [of(0, 0), of(0, 1), of(1, 0)] {
        assert_eq!(papers.remove(1, name), Ok(true));
    }
    assert_eq!((papers.ids().count(), papers.is_enough(), papers.recover(&noted)), (0, false, Err(Error::NoShares)));
    assert!(!papers.add(ONE).unwrap().again && papers.is_enough());
}

#[test]
fn a_line_feed_may_end_one_mnemonic() {
    let spelled = FIVE[0].replace("cluster", "?\n");
    for ended in [format!("{}\n", FIVE[0]), format!("{}\r\n", FIVE[0])] {
        assert_eq!(parse(&ended), parse(FIVE[0]));
        assert_eq!(judge("", &ended), judge("", FIVE[0]));
        assert!(repair(&ended).unwrap().iter().eq([FIVE[0]]));
    }
    assert!(repair(&spelled).unwrap().iter().eq([FIVE[0]]));
    assert_eq!(shamir::repair_into(&spelled, &mut [0; 1980]).unwrap().trim_end(), FIVE[0]);
    let two = format!("{}\n\n", FIVE[0]);
    let errors =
        [parse(&two).unwrap_err(), judge("", &two).unwrap_err(), repair(&two).unwrap_err(), Papers::new().add(&two).unwrap_err()];
    assert_eq!(errors, [(); 4].map(|()| Error::UnknownWord { line: None, position: 20 }));
}

#[test]
fn mnemonics_are_cloned() {
    let mut papers = Papers::new();
    papers.add(ONE).unwrap();
    let kept: Mnemonics = papers.lines(7945).clone();
    drop(papers);
    assert!(kept.iter().eq([ONE]));
}

#[test]
fn a_refused_paper_is_not_kept() {
    let mut papers = Papers::new();
    papers.add(FIVE[0]).unwrap();
    let long = FIVE[1].to_owned() + &" ".repeat(900);
    for (paper, code) in
        [(CONFLICTING, 28), ("academic x", 11), ("", 12), (&long, 71), (&FIVE[1].replace("skin", "academic"), 13)]
    {
        let error = papers.add(paper).unwrap_err();
        assert_eq!((error.code(), error.line()), (code, None));
    }
    assert!(papers.lines(1).iter().eq([FIVE[0]]));
}

#[test]
fn papers_are_kept_in_the_spelling_of_the_library() {
    let mut papers = Papers::new();
    papers.add(format!(" {}{}", FIVE[0].to_uppercase().replace(' ', "\t  "), " ".repeat(700))).unwrap();
    papers.add(FIVE[1]).unwrap();
    assert!(papers.lines(1).iter().eq([FIVE[0], FIVE[1]]));
}
