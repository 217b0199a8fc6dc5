//! A target of libFuzzer for the calls of the crate. The first byte of an input chooses the call, and the second isn't used. Then come a text
//! that ends with a NUL, such as a plan, names or a passphrase, and the lines. So inputs are those of the target in C.
#![no_main]
use libfuzzer_sys::fuzz_target;
use shamir::{Drill, EncryptedSecret, Error, Plan, RecoverOptions, Secret};

/// Makes a call, and drops what it gives.
fn call(which: u8, text: &[u8], lines: &[u8]) -> Result<(), Error> {
    let options = RecoverOptions::new().passphrase(text).max_exponent(0);
    let plan = || String::from_utf8_lossy(text).parse::<Plan>();
    match which % 15 {
        0 => shamir::parse(lines).map(drop),
        1 => shamir::recover(lines, &options).map(drop),
        2 | 3 => shamir::encrypted(lines).map(drop),
        4 => Drill::new(lines, &options).take(3).try_for_each(|outcome| outcome.map(drop)),
        6 => shamir::reissue(&plan()?, "0.0", lines).map(drop),
        7 => shamir::resplit(&plan()?, lines, &lines[..lines.len().min(14)]).map(drop),
        8 => shamir::repair(lines).map(drop),
        5 | 9 | 10 => shamir::status(lines).map(drop),
        11 => shamir::judge(lines, text).map(drop),
        12 => {
            let value = Secret::new(&lines[..lines.len().min(16)])?;
            let secret = EncryptedSecret { id: 1, extendable: true, exponent: 0, value };
            shamir::create_from_encrypted(&plan()?, &secret, &lines[..lines.len().min(14)]).map(drop)
        }
        13 => {
            let kept = EncryptedSecret { id: 1, extendable: false, exponent: 0, value: Secret::new(lines)? };
            shamir::decrypt_round(&kept, (lines.len() % 5) as u8, text).map(drop)
        }
        _ => Ok(drop(shamir::words(text))),
    }
}

fuzz_target!(|data: &[u8]| {
    let [which, _, rest @ ..] = data else { return };
    let (text, lines) = rest.split_at(rest.iter().position(|byte| *byte == 0).unwrap_or(rest.len()));
    let lines = lines.strip_prefix(b"\0").unwrap_or(lines);
    if let Err(error) = call(*which, text, lines) {
        assert!(error.code() > 1 && !error.to_string().contains("unknown answer"), "{error}");
    }
    // Calls of the same lines agree.
    match (shamir::status(lines), shamir::quorums(lines)) {
        (Ok(status), Ok(quorums)) => assert_eq!(status.is_enough(), quorums > 0),
        (status, quorums) => assert_eq!(status.err(), quorums.err()),
    }
    if shamir::parse(lines).is_ok() {
        assert_eq!(shamir::repair(lines).map(|found| found.iter().count()), Ok(1));
    }
});
