//! Four clients of the crate. The first line of standard input is the passphrase, except for `repair`. Papers are the lines after it, or
//! those of a file. FINGERPRINT is what `make` told. Enter stops a drill. `cargo run --example wallet make 2of3` runs the first. To stay
//! short, it shows what is typed, and keeps it and new papers in a `String`, which isn't cleared. A wallet hides and clears them.
use shamir::{CreateOptions, Drill, Found, Outcome, Papers, RecoverOptions, Recovered, Secret};
use std::{env, error::Error, fs, io, io::Read, sync::mpsc, thread};

fn make(passphrase: &str, plan: &str) -> Result<String, Box<dyn Error>> {
    let draw = |room: &mut [u8]| fs::File::open("/dev/urandom")?.read_exact(room).map_err(Box::<dyn Error>::from);
    let secret = Secret::draw(16, draw)?;
    let options = CreateOptions::new().passphrase(passphrase);
    let papers = shamir::create_with(&plan.parse()?, &secret, &options, draw)?;
    Ok(format!("{}# fingerprint {}\n", papers.as_str(), shamir::fingerprint(&secret)))
}

fn recover(options: &RecoverOptions<'_>) -> Result<String, Box<dyn Error>> {
    let mut papers = Papers::new();
    for line in io::stdin().lines() {
        println!("{}", papers.add_and_tell(line?));
        match papers.recover(options) {
            _ if !papers.is_enough() => {}
            Err(mismatch @ shamir::Error::DigestMismatch { .. }) => println!("{mismatch}"),
            found => {
                let Recovered { secret, doubtful, .. } = found?;
                let doubtful: String = doubtful.iter().map(|name| format!("doubtful {name}\n")).collect();
                return Ok(format!("{doubtful}fingerprint {}\n", shamir::fingerprint(&secret)));
            }
        }
    }
    Err("more papers are needed".into())
}

fn drill(options: &RecoverOptions<'_>, file: &str) -> Result<String, Box<dyn Error>> {
    let papers = fs::read(file)?;
    let quorums = shamir::quorums(&papers)?;
    let (enter, entered) = mpsc::channel();
    thread::spawn(move || io::stdin().lines().next().map(|line| enter.send(line)));
    for (number, outcome) in (1..).zip(Drill::new(&papers, options)) {
        let Outcome { names, found, .. } = outcome?;
        println!("{number} of {quorums}: {names} {}as expected", if found == Found::AsExpected { "" } else { "NOT " });
        if entered.try_recv().is_ok() {
            return Ok(format!("stopped after {names}\n"));
        }
    }
    Ok(String::new())
}

fn main() -> Result<(), String> {
    let usage = "give make PLAN, recover FINGERPRINT, drill FINGERPRINT FILE or repair, and a line of input";
    let line = || io::stdin().lines().next().and_then(Result::ok).ok_or(usage);
    let words: Vec<String> = env::args().skip(1).collect();
    let told = match words.iter().map(String::as_str).collect::<Vec<_>>()[..] {
        ["make", plan] => make(&line()?, plan),
        ["recover", noted] => recover(&RecoverOptions::new().passphrase(&line()?).expected(noted)),
        ["drill", noted, file] => drill(&RecoverOptions::new().passphrase(&line()?).expected(noted), file),
        ["repair"] => shamir::repair(line()?).map(|papers| papers.as_str().into()).map_err(Into::into),
        _ => Err(usage.into()),
    };
    print!("{}", told.map_err(|error| error.to_string())?);
    Ok(())
}
