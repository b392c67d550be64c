//! Finds libmigthumo.a, tests its version and has it linked, or says what to do.

use std::env::{self, consts};
use std::ffi::OsString;
use std::path::{Path, PathBuf};
use std::process::Command;
use std::{fs, str};

// The version that this crate is written for, from the crate's own text.
#[path = "src/version.rs"]
mod version;
use version::VERSION;

/// The variable that names the folder of a libmigthumo.a: a whole path, or one seen from this crate's folder.
const VARIABLE: &str = "MIGTHUMO_LIB_DIR";

/// The folder with the repository's libmigthumo.a, seen from this crate's folder.
const PREBUILT: &str = "../../prebuilt/x86_64-linux";

/// The library's function that answers its version.
const FUNCTION: &str = "migthumo_version";

/// A program that writes the version of the library that it is linked with.
const PROBE: &str = r#"
unsafe extern "C" {
    fn migthumo_version() -> u32;
}

fn main() {
    // SAFETY: it takes nothing and answers a number.
    println!("{}", unsafe { migthumo_version() });
}
"#;

/// Why the build stops.
enum Stop {
    /// The library is missing, or not the one that this crate is written for.
    Library(String),
    /// The library could not be asked, for a reason that need not be its own.
    Unasked(String),
}

fn main() {
    println!("cargo::rerun-if-env-changed={VARIABLE}");
    println!("cargo::rerun-if-env-changed=DOCS_RS");
    // docs.rs makes documents, links nothing, and has this crate's folder alone.
    if env::var_os("DOCS_RS").is_some() {
        return;
    }
    let named = env::var_os(VARIABLE).filter(|value| !value.is_empty());
    let outcome = match &named {
        Some(value) => link(&here().join(value)),
        None if prebuilt_fits() => {
            let folder = here().join(PREBUILT);
            link(&folder.canonicalize().unwrap_or(folder))
        }
        None => {
            println!(
                "cargo::warning=there is a libmigthumo.a for x86_64 Linux and none for {}: this crate can be checked \
                 and its documentation made, but a program that calls it is not linked unless {VARIABLE} names a \
                 folder with a libmigthumo.a for that target",
                variable("TARGET")
            );
            Ok(())
        }
    };
    match outcome {
        Ok(()) => {}
        Err(Stop::Library(what)) => println!("cargo::error={what}; {}", advice(named.is_some())),
        Err(Stop::Unasked(what)) => println!("cargo::error={what}"),
    }
}

/// What to do where the library is missing or not the right one.
fn advice(named: bool) -> String {
    let other = match named {
        true => format!("unset {VARIABLE} for the library in prebuilt/ of this crate's own checkout"),
        false => "bring prebuilt/ back as it was committed".to_owned(),
    };
    format!(
        "take the crate and the library from one checkout of Migthumo: {other}, or, with the Rattle kit, run its \
         `tools/staticlib.sh` and set {VARIABLE} to its target/staticlib"
    )
}

/// A variable that cargo sets.
fn variable(name: &str) -> String {
    env::var(name).unwrap_or_default()
}

/// This crate's folder.
fn here() -> PathBuf {
    PathBuf::from(env::var_os("CARGO_MANIFEST_DIR").unwrap_or_default())
}

/// Whether the target is x86-64 Linux with pointers of 64 bits. The library calls nothing, so any C library will do.
fn prebuilt_fits() -> bool {
    variable("CARGO_CFG_TARGET_ARCH") == "x86_64"
        && variable("CARGO_CFG_TARGET_OS") == "linux"
        && variable("CARGO_CFG_TARGET_POINTER_WIDTH") == "64"
}

/// Whether a program with the target's objects runs here: this script's own architecture and system.
fn target_runs_here() -> bool {
    variable("CARGO_CFG_TARGET_ARCH") == consts::ARCH
        && variable("CARGO_CFG_TARGET_OS") == consts::OS
        && variable("CARGO_CFG_TARGET_POINTER_WIDTH") == usize::BITS.to_string()
}

/// Links the library that stands in the folder, once its version is tested.
fn link(folder: &Path) -> Result<(), Stop> {
    let library = folder.join("libmigthumo.a");
    let Some(path) = folder.to_str() else {
        return Err(Stop::Unasked(format!("{} can't be handed to cargo, since it is not UTF-8", folder.display())));
    };
    println!("cargo::rerun-if-changed={}", library.display());
    if !library.is_file() {
        return Err(Stop::Library(format!("there is no {}", library.display())));
    }
    test_version(folder, &library)?;
    println!("cargo::rustc-link-search=native={path}");
    println!("cargo::rustc-link-lib=static=migthumo");
    Ok(())
}

/// Tests the library's version: by a program that is run, or where none can be, that there is one.
fn test_version(folder: &Path, library: &Path) -> Result<(), Stop> {
    let name = library.display();
    let bytes = fs::read(library).map_err(|error| Stop::Unasked(format!("{name} can't be read: {error}")))?;
    if !bytes.windows(FUNCTION.len()).any(|window| window == FUNCTION.as_bytes()) {
        return Err(Stop::Library(format!(
            "{name} has no version, since there is no {FUNCTION} in it, and this crate is written for version {VERSION}"
        )));
    }
    if !target_runs_here() {
        println!(
            "cargo::warning=the version of {name} was not tested, since a program for {} does not run on {}; this \
             crate is written for version {VERSION}",
            variable("TARGET"),
            variable("HOST")
        );
        return Ok(());
    }
    match version_in(folder) {
        Ok(VERSION) => Ok(()),
        Ok(found) => {
            Err(Stop::Library(format!("{name} has version {found}, and this crate is written for version {VERSION}")))
        }
        Err(why) => Err(Stop::Unasked(format!("the version of {name} could not be tested: {why}"))),
    }
}

/// The version that the probe writes, linked with the library of this folder.
fn version_in(folder: &Path) -> Result<u32, String> {
    let room = PathBuf::from(env::var_os("OUT_DIR").unwrap_or_default());
    let program = room.join(format!("probe{}", consts::EXE_SUFFIX));
    let (source, log) = (room.join("probe.rs"), room.join("probe.log"));
    fs::write(&source, PROBE).map_err(|error| format!("{} can't be written: {error}", source.display()))?;

    let compiler = env::var_os("RUSTC").unwrap_or("rustc".into());
    let mut search = OsString::from("native=");
    search.push(folder);
    let mut build = Command::new(&compiler);
    build.arg(&source).arg("-o").arg(&program).args(["--edition=2021", "--cap-lints=allow"]);
    build.arg("-L").arg(search).args(["-l", "static=migthumo"]).args(target_flags());
    let built = build.output().map_err(|error| format!("{} can't be run: {error}", compiler.to_string_lossy()))?;
    if !built.status.success() {
        let text = String::from_utf8_lossy(&built.stderr);
        let first = text.lines().find(|line| line.starts_with("error")).unwrap_or("no error was named");
        let _ = fs::write(&log, text.as_bytes());
        return Err(format!("a program that links it can't be built ({first}); {} has the whole text", log.display()));
    }

    let run = Command::new(&program).current_dir(&room).output();
    let run = run.map_err(|error| format!("{} can't be run: {error}", program.display()))?;
    let text = str::from_utf8(&run.stdout).unwrap_or_default().trim();
    match text.parse() {
        Ok(version) if run.status.success() => Ok(version),
        _ => Err(format!("{} ended with {} and wrote '{text}'", program.display(), run.status)),
    }
}

/// The linker and the flags that cargo has for the target, where the target is the host itself.
fn target_flags() -> Vec<OsString> {
    if variable("TARGET") != variable("HOST") {
        return Vec::new();
    }
    let linker = env::var_os("RUSTC_LINKER").map(|linker| {
        let mut flag = OsString::from("-Clinker=");
        flag.push(linker);
        flag
    });
    let flags = variable("CARGO_ENCODED_RUSTFLAGS");
    let flags = flags.split('\x1f').filter(|flag| !flag.is_empty()).map(OsString::from);
    linker.into_iter().chain(flags).collect()
}
