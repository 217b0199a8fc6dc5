//! Makes calls of the crate, and writes what the command `shamir` would print. `tools/rust` runs it.
//!
//! Each line of the input is a command and its values. A value is a point and hexadecimal digits, or `-` for none. Each line of the
//! output has what the command writes to standard output and to standard error, both in this form.
use shamir::{
    CreateOptions, DecryptOptions, Drill, EncryptedSecret, Error, Found, Plan, RecoverOptions, Secret, ShareFields, Status,
};
use shamir::{
    create, create_from_encrypted, create_with, decrypt, decrypt_round, encrypted, fingerprint, judge, parse, quorums, recover,
    reissue, repair, resplit, status, words,
};
use std::fmt::Write;
use std::io::{self, BufRead};

type Value = Option<Vec<u8>>;

fn hex(bytes: &[u8]) -> String {
    bytes.iter().fold(String::new(), |digits, byte| digits + &format!("{byte:02x}"))
}

fn value(word: &str) -> Value {
    let digits = word.strip_prefix('.')?;
    let byte = |pair| u8::from_str_radix(pair, 16).expect("digits");
    Some((0..digits.len()).step_by(2).map(|place| byte(&digits[place..place + 2])).collect())
}

fn text(value: &[u8]) -> &str {
    std::str::from_utf8(value).expect("a text")
}

fn number(value: &[u8]) -> u32 {
    text(value).parse().expect("a number")
}

fn fields(share: &ShareFields) -> String {
    format!(
        "identifier {} extendable {} exponent {} group {} group-threshold {} group-count {} member {} member-threshold {}",
        share.id,
        u8::from(share.extendable),
        share.exponent,
        share.group_index,
        share.group_threshold,
        share.group_count,
        share.member_index,
        share.member_threshold
    )
}

/// Creates a backup. The random bytes are handed in as a slice, and drawn by a closure too if there are as many as are needed.
fn created(plan: &[u8], secret: &[u8], options: &CreateOptions<'_>, random: &[u8]) -> Result<String, Error> {
    let plan: Plan = text(plan).parse()?;
    let secret = Secret::new(secret)?;
    let mnemonics = create(&plan, &secret, options, random)?;
    let drawn = create_with::<Error>(&plan, &secret, options, |room| {
        room.copy_from_slice(random);
        Ok(())
    })?;
    assert!(drawn.as_str() == mnemonics.as_str(), "a closure and a slice give two backups");
    Ok(mnemonics.as_str().into())
}

fn options<'a>(passphrase: &'a [u8], expected: &'a Value, most: &[u8]) -> RecoverOptions<'a> {
    let options = RecoverOptions::new().passphrase(passphrase).max_exponent(number(most));
    expected.as_ref().map_or(options, |expected| options.expected(expected))
}

fn recovered(lines: &[u8], options: &RecoverOptions<'_>, as_fingerprint: bool) -> Result<String, Error> {
    let secret = recover(lines, options)?;
    Ok(if as_fingerprint { format!("{}\n", fingerprint(&secret)) } else { format!("{}\n", hex(secret.as_bytes())) })
}

fn kept(secret: &EncryptedSecret) -> String {
    let EncryptedSecret { id, extendable, exponent, value } = secret;
    let digits = hex(value.as_bytes());
    format!("identifier {id} extendable {} exponent {exponent} value {digits}\n", u8::from(*extendable))
}

fn encrypted_secret(id: &[u8], extendable: &[u8], exponent: &[u8], value: &[u8]) -> Result<EncryptedSecret, Error> {
    let id = u16::try_from(number(id)).expect("two bytes");
    let exponent = u8::try_from(number(exponent)).expect("a byte");
    Ok(EncryptedSecret { id, extendable: !extendable.is_empty(), exponent, value: Secret::new(value)? })
}

fn decrypted(secret: &EncryptedSecret, passphrase: &[u8], expected: &Value) -> Result<String, Error> {
    let options = DecryptOptions::new().passphrase(passphrase);
    let options = expected.as_ref().map_or(options, |expected| options.expected(expected));
    Ok(format!("{}\n", hex(decrypt(secret, &options)?.as_bytes())))
}

fn drilled(drill: Drill<'_>, limit: usize) -> Result<String, Error> {
    let (mut listed, mut last) = (String::new(), None);
    for (place, outcome) in drill.enumerate() {
        let outcome = outcome?;
        if place == limit {
            return Ok(listed + &format!("more after {}\n", last.expect("a limit above 0")));
        }
        let found = match &outcome.found {
            Found::Secret(secret) => hex(secret.as_bytes()),
            other => match other {
                Found::Fingerprint(fingerprint) => fingerprint.to_string(),
                Found::AsExpected => "as expected".into(),
                Found::OtherSecret => "other secret".into(),
                Found::Mismatch(mismatch) => mismatch.to_string(),
                unknown => panic!("{unknown:?}"),
            },
        };
        let names: Vec<String> = outcome.names.iter().map(|name| name.to_string()).collect();
        assert_eq!(names.join("+"), outcome.names.as_str());
        writeln!(listed, "{} {found}", outcome.names).expect("a string takes all");
        last = Some(outcome.names);
    }
    Ok(listed + "end\n")
}

fn statuses(status: &Status) -> String {
    assert_eq!(status.is_enough(), status.complete >= status.required);
    for group in status.groups() {
        assert_eq!(group.names().count(), group.members().count());
    }
    format!("{status}\n")
}

/// Gives what a command writes to standard output, or its refusal.
fn answer(command: &str, values: &[Value]) -> Result<String, Error> {
    let given: Vec<&[u8]> = values.iter().map(|value| value.as_deref().unwrap_or_default()).collect();
    match (command, given.as_slice()) {
        ("show", [line]) => {
            let share = parse(line)?;
            Ok(format!("{} value {}\n", fields(&ShareFields::from(&share)), hex(share.value.as_bytes())))
        }
        ("words", [letters]) => Ok(words(letters).iter().fold(String::new(), |lines, word| lines + word + "\n")),
        ("create", [plan, secret, passphrase, exponent, extendable, random]) => {
            let options =
                CreateOptions::new().passphrase(passphrase).exponent(number(exponent)).extendable(!extendable.is_empty());
            created(plan, secret, &options, random)
        }
        ("random_needed", [plan, size]) => Ok(format!("{}\n", text(plan).parse::<Plan>()?.random_needed(number(size) as usize)?)),
        ("recover", [passphrase, _, as_fingerprint, most, lines]) => {
            recovered(lines, &options(passphrase, &values[1], most), !as_fingerprint.is_empty())
        }
        ("encrypted", [lines]) => Ok(kept(&encrypted(lines)?)),
        ("decrypt", [id, extendable, exponent, passphrase, _, value]) => {
            decrypted(&encrypted_secret(id, extendable, exponent, value)?, passphrase, &values[4])
        }
        ("decrypt_round", [round, id, extendable, exponent, passphrase, value]) => {
            let round = u8::try_from(number(round)).expect("a byte");
            let text = decrypt_round(&encrypted_secret(id, extendable, exponent, value)?, round, passphrase)?;
            Ok(format!("{}\n", hex(text.as_bytes())))
        }
        ("create_from_encrypted", [plan, id, extendable, exponent, random, value]) => {
            let plan = text(plan).parse()?;
            let secret = encrypted_secret(id, extendable, exponent, value)?;
            Ok(create_from_encrypted(&plan, &secret, random)?.as_str().into())
        }
        ("drill", [passphrase, after, _, limit, as_fingerprints, most, lines]) => {
            let mut drill = Drill::new(lines, &options(passphrase, &values[2], most));
            if values[1].is_some() {
                drill = drill.after(after);
            }
            if !as_fingerprints.is_empty() {
                drill = drill.fingerprints();
            }
            drilled(drill, number(limit) as usize)
        }
        ("quorums", [lines]) => Ok(format!("{}\n", quorums(lines)?)),
        ("fingerprint", [secret]) => Ok(format!("{}\n", fingerprint(&Secret::new(secret)?))),
        ("status", [lines]) => Ok(statuses(&status(lines)?)),
        ("judge", [line, lines]) => {
            let found = judge(lines, line)?;
            let told = if found.again { "again" } else { "new" };
            Ok(format!("{told} {}\n{}", fields(&found.share), statuses(&found.status)))
        }
        ("reissue", [plan, names, lines]) => Ok(reissue(&text(plan).parse()?, names, lines)?.as_str().into()),
        ("resplit", [plan, random, lines]) => Ok(resplit(&text(plan).parse()?, lines, random)?.as_str().into()),
        ("repair", [line]) => Ok(repair(line)?.as_str().into()),
        _ => panic!("{command} has other values"),
    }
}

fn main() {
    for line in io::stdin().lock().lines() {
        let line = line.expect("a line");
        let (command, values) = line.split_once(' ').expect("a command and its values");
        let values: Vec<Value> = values.split(' ').map(value).collect();
        let (output, told) = match answer(command, &values) {
            Ok(output) => (output, String::new()),
            Err(error) => (String::new(), error.to_string()),
        };
        println!(".{} .{}", hex(output.as_bytes()), hex(told.as_bytes()));
    }
}
