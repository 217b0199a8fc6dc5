//! Links the library. `SHAMIR_LIB_DIR` names the folder of a `libshamir.a`, and `SHAMIR_USE_PKG_CONFIG` asks for the one that
//! `pkg-config` tells. Without these, the archive of the repository is linked if it is built there, and else the library is compiled
//! from `shamir.c`, the library as plain C. With the feature `program`, the program `shamir` is compiled from `program.c`.
use std::env;
use std::ffi::OsString;
use std::path::{Path, PathBuf};
use std::process::Command;

const ARCHIVE: &str = "libshamir.a";
/// What the crate takes from elsewhere: where its archive has this, and where the repository.
const LIBRARY: [&str; 2] = ["c/shamir.c", "../../dist/c/shamir.c"];
const PROGRAM: [&str; 2] = ["c/program.c", "../../dist/c/program.c"];
const HEADER: [&str; 2] = ["c/shamir.h", "../../include/shamir.h"];
const VECTORS: [&str; 2] = ["tests/given/published_vectors", "../../crates/s39_tests_backups/src/published.rt"];
/// The crate declares the calls of these versions.
const VERSIONS: &[&str] = &["shamir >= 1", "shamir < 2"];

fn main() {
    let target = variable("TARGET").replace('-', "_");
    for name in ["SHAMIR_LIB_DIR", "SHAMIR_USE_PKG_CONFIG", "PKG_CONFIG_PATH", "PKG_CONFIG_LIBDIR", "CC", "AR", "CFLAGS"] {
        println!("cargo::rerun-if-env-changed={name}");
    }
    println!("cargo::rerun-if-env-changed=CC_{target}");
    println!("cargo::rerun-if-env-changed=AR_{target}");
    // The tests read these.
    for (name, places) in [("SHAMIR_HEADER", HEADER), ("SHAMIR_VECTORS", VECTORS)] {
        println!("cargo::rustc-env={name}={}", carried(places).display());
    }
    match named().or_else(asked).or_else(built).unwrap_or_else(|| archived(&target)) {
        Ok(folder) => {
            println!("cargo::rustc-link-search=native={}", folder.display());
            println!("cargo::rustc-link-lib=static=shamir");
        }
        Err(missing) => println!("cargo::error={missing}"),
    }
    if env::var_os("CARGO_FEATURE_PROGRAM").is_some() {
        match compiled("program", PROGRAM, &target) {
            Ok(object) => link_program(&object),
            Err(missing) => println!("cargo::error={missing}"),
        }
    }
}

/// Lets the program be linked from this object.
fn link_program(object: &Path) {
    println!("cargo::rustc-link-arg-bin=shamir={}", object.display());
    if variable("CARGO_CFG_TARGET_OS") == "windows" {
        // It takes apart the line of a command.
        println!("cargo::rustc-link-arg-bin=shamir=-lshell32");
    }
}

/// Gives a variable that Cargo sets, or an empty text.
fn variable(name: &str) -> String {
    env::var(name).unwrap_or_default()
}

/// Gives the folder of the crate.
fn here() -> PathBuf {
    PathBuf::from(env::var_os("CARGO_MANIFEST_DIR").unwrap_or_default())
}

/// Gives the place where one of these files is.
fn carried(places: [&str; 2]) -> PathBuf {
    let found = places.map(|place| here().join(place)).into_iter().find(|place| place.is_file());
    found.inspect(|place| watch(place)).unwrap_or_else(|| here().join(places[0]))
}

/// Lets Cargo run this script again if a file changes. For one that isn't there, or that the script itself writes, it would do so in
/// each build.
fn watch(file: &Path) {
    println!("cargo::rerun-if-changed={}", file.display());
}

/// Gives the folder that `SHAMIR_LIB_DIR` names, if it is set.
fn named() -> Option<Result<PathBuf, String>> {
    let folder = PathBuf::from(env::var_os("SHAMIR_LIB_DIR")?);
    let missing = || {
        format!(
            "SHAMIR_LIB_DIR is {}, and no {ARCHIVE} is there: set it to the absolute path of the folder that has {ARCHIVE}",
            folder.display()
        )
    };
    Some(with_archive(&folder).ok_or_else(missing))
}

/// Gives the folder that `pkg-config` tells, if `SHAMIR_USE_PKG_CONFIG` asks for it.
fn asked() -> Option<Result<PathBuf, String>> {
    env::var_os("SHAMIR_USE_PKG_CONFIG").filter(|asks| asks != "0" && !asks.is_empty())?;
    let missing = || {
        format!(
            "SHAMIR_USE_PKG_CONFIG is set, and pkg-config tells of no {ARCHIVE} of a version that fits ({})",
            VERSIONS.join(", ")
        )
    };
    Some(installed().and_then(|folder| with_archive(&folder)).ok_or_else(missing))
}

/// Gives the folder of the repository, if the crate is in it, and the native library is built there and runs on the target.
fn built() -> Option<Result<PathBuf, String>> {
    if (variable("CARGO_CFG_TARGET_OS").as_str(), variable("CARGO_CFG_TARGET_ARCH").as_str()) != ("linux", "x86_64") {
        return None;
    }
    // Another project can have an archive of this name there.
    if !here().join(HEADER[1]).is_file() {
        return None;
    }
    with_archive(&here().join("../..")).map(Ok)
}

/// Gives the folder as an absolute path if the library is there.
fn with_archive(folder: &Path) -> Option<PathBuf> {
    if !folder.join(ARCHIVE).is_file() {
        return None;
    }
    let folder = folder.canonicalize().ok()?;
    watch(&folder.join(ARCHIVE));
    Some(folder)
}

/// Gives the folder that `pkg-config` tells, if it knows the library in a version that fits.
fn installed() -> Option<PathBuf> {
    told(&[&["--exists"], VERSIONS].concat())?;
    Some(PathBuf::from(told(&["--variable=libdir", "shamir"])?.trim_end()))
}

/// Gives what `pkg-config` prints, if it succeeds.
fn told(words: &[&str]) -> Option<String> {
    let ended = Command::new("pkg-config").args(words).output().ok()?;
    if !ended.status.success() {
        return None;
    }
    String::from_utf8(ended.stdout).ok()
}

/// Gives the folder for what is built.
fn out() -> PathBuf {
    PathBuf::from(env::var_os("OUT_DIR").unwrap_or_default())
}

/// Compiles a file of plain C, and gives its object.
fn compiled(name: &str, source: [&str; 2], target: &str) -> Result<PathBuf, String> {
    let object = out().join(format!("{name}.o"));
    let mut compiler = tool("CC", "cc", target)?;
    compiler.args(["-O2", "-c", "-o"]).arg(&object).arg(carried(source));
    if variable("CARGO_CFG_TARGET_OS") != "windows" {
        compiler.arg("-fPIC");
    }
    compiler.args(variable("CFLAGS").split_whitespace());
    run(compiler, "CC")?;
    Ok(object)
}

/// Compiles the library as plain C, and gives the folder of its archive.
fn archived(target: &str) -> Result<PathBuf, String> {
    let (object, archive) = (compiled("shamir", LIBRARY, target)?, out().join(ARCHIVE));
    // `ar` adds to an archive that is there.
    let _ = std::fs::remove_file(&archive);
    let mut archiver = tool("AR", "ar", target)?;
    archiver.arg("crs").arg(&archive).arg(&object);
    run(archiver, "AR")?;
    Ok(out())
}

/// Gives the program that a variable names, for this target or for all, or else the usual one, which builds for this machine alone.
fn tool(name: &str, usual: &str, target: &str) -> Result<Command, String> {
    let given = env::var(format!("{name}_{target}")).or_else(|_| env::var(name)).unwrap_or_default();
    let mut words = given.split_whitespace().map(OsString::from);
    let Some(first) = words.next() else {
        if variable("HOST") == variable("TARGET") {
            return Ok(Command::new(usual));
        }
        return Err(format!(
            "the plain C of shamir is compiled for {}: set {name}_{target} to a program for this target",
            variable("TARGET")
        ));
    };
    let mut command = Command::new(first);
    command.args(words);
    Ok(command)
}

/// Runs a compiler, or says in one line which variable names another.
fn run(mut command: Command, name: &str) -> Result<(), String> {
    let program = command.get_program().to_string_lossy().into_owned();
    let why = match command.output() {
        Ok(done) if done.status.success() => return Ok(()),
        Ok(done) => String::from_utf8_lossy(&done.stderr)
            .lines()
            .find(|line| line.contains("error"))
            .unwrap_or("it says nothing")
            .to_string(),
        Err(error) => error.to_string(),
    };
    Err(format!(
        "{program} doesn't take the plain C of shamir: {why} ({name} names another program; SHAMIR_LIB_DIR names the folder of a built {ARCHIVE})"
    ))
}
