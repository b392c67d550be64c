//! What the build script says: the library in prebuilt/ and in a named folder, one that is missing, old or of another
//! version, other targets. The script is compiled and run as cargo would, with libraries that rustc makes here.

use std::ffi::OsStr;
use std::fs;
use std::path::{Path, PathBuf};
use std::process::Command;
use std::sync::OnceLock;

/// This crate's folder.
const HERE: &str = env!("CARGO_MANIFEST_DIR");

/// Whether the script finds the repository's own library for the machine that this runs on.
const PREBUILT_FITS: bool = cfg!(all(target_arch = "x86_64", target_os = "linux", target_pointer_width = "64"));

/// An empty folder for one test.
fn room(name: &str) -> PathBuf {
    let room = Path::new(env!("CARGO_TARGET_TMPDIR")).join("build_script").join(name);
    let _ = fs::remove_dir_all(&room);
    fs::create_dir_all(&room).unwrap();
    room
}

/// Has rustc make something of a text.
fn compile(source: &Path, output: &Path, kind: &str) {
    let rustc = Command::new("rustc")
        .args(["--edition=2021", kind])
        .arg(source)
        .arg("-o")
        .arg(output)
        .output()
        .expect("rustc is on the path");
    assert!(rustc.status.success(), "{}", String::from_utf8_lossy(&rustc.stderr));
}

/// The build script as a program.
fn script() -> &'static Path {
    static SCRIPT: OnceLock<PathBuf> = OnceLock::new();
    SCRIPT.get_or_init(|| {
        let script = room("script").join("script");
        compile(&Path::new(HERE).join("build.rs"), &script, "--crate-type=bin");
        script
    })
}

/// A folder with a library of these functions and no other.
fn library(name: &str, functions: &str) -> PathBuf {
    let folder = room(name);
    let source = folder.join("stub.rs");
    fs::write(&source, format!("#![no_std]\n{functions}")).unwrap();
    // Rust's own kind of library is an archive of objects too.
    compile(&source, &folder.join("libmigthumo.a"), "--crate-type=rlib");
    folder
}

/// A library whose version is this number.
fn of_version(name: &str, version: &str) -> PathBuf {
    library(name, &format!("#[no_mangle]\npub extern \"C\" fn migthumo_version() -> u32 {{ {version} }}"))
}

/// What the script says for this machine, with more variables.
fn said<V: AsRef<OsStr>>(name: &str, variables: &[(&str, V)]) -> Vec<String> {
    let pointer_width = usize::BITS.to_string();
    let output = Command::new(script())
        .env_remove("MIGTHUMO_LIB_DIR")
        .env_remove("DOCS_RS")
        .env_remove("RUSTC_LINKER")
        .env_remove("CARGO_ENCODED_RUSTFLAGS")
        .env("RUSTC", "rustc")
        .env("CARGO_MANIFEST_DIR", HERE)
        .env("OUT_DIR", room(name))
        .env("HOST", "this-machine")
        .env("TARGET", "this-machine")
        .env("CARGO_CFG_TARGET_ARCH", std::env::consts::ARCH)
        .env("CARGO_CFG_TARGET_OS", std::env::consts::OS)
        .env("CARGO_CFG_TARGET_POINTER_WIDTH", pointer_width)
        .envs(variables.iter().map(|(name, value)| (name, value)))
        .output()
        .unwrap();
    assert!(output.status.success(), "{}", String::from_utf8_lossy(&output.stderr));
    String::from_utf8(output.stdout).unwrap().lines().map(str::to_owned).collect()
}

/// The lines that begin so.
fn lines<'a>(said: &'a [String], begin: &str) -> Vec<&'a str> {
    said.iter().filter_map(|line| line.strip_prefix(begin)).collect()
}

/// That it links the library of this folder, and says nothing else.
fn assert_links(said: &[String], folder: &Path) {
    assert_eq!(lines(said, "cargo::rustc-link-search=native="), [folder.to_str().unwrap()]);
    assert_eq!(lines(said, "cargo::rustc-link-lib="), ["static=migthumo"]);
    assert!(lines(said, "cargo::error=").is_empty() && lines(said, "cargo::warning=").is_empty(), "{said:?}");
}

/// That it links nothing, and says one thing of a kind, with all these words.
fn assert_says(said: &[String], kind: &str, words: &[&str]) {
    assert!(lines(said, "cargo::rustc-link").is_empty(), "{said:?}");
    let (messages, all) = (lines(said, kind), said.iter().filter(|line| !line.starts_with("cargo::rerun")).count());
    assert_eq!((messages.len(), all), (1, 1), "{said:?}");
    for word in words {
        assert!(messages[0].contains(word), "'{word}' is not in '{}'", messages[0]);
    }
}

#[test]
fn the_repositorys_own() {
    let said = said::<&str>("own", &[]);
    match PREBUILT_FITS {
        true => assert_links(&said, &Path::new(HERE).join("../../prebuilt/x86_64-linux").canonicalize().unwrap()),
        false => assert_says(&said, "cargo::warning=", &["this-machine", "MIGTHUMO_LIB_DIR"]),
    }
    assert_eq!(lines(&said, "cargo::rerun-if-env-changed="), ["MIGTHUMO_LIB_DIR", "DOCS_RS"]);
}

#[test]
fn an_empty_name_is_none() {
    let said = said("empty_name", &[("MIGTHUMO_LIB_DIR", "")]);
    assert_eq!(lines(&said, "cargo::rustc-link-lib=").len(), usize::from(PREBUILT_FITS));
}

#[test]
fn a_named_folder() {
    let folder = of_version("named", "2");
    let said = said("named_run", &[("MIGTHUMO_LIB_DIR", &folder)]);
    assert_links(&said, &folder);
    assert_eq!(lines(&said, "cargo::rerun-if-changed="), [folder.join("libmigthumo.a").to_str().unwrap()]);
}

#[test]
fn a_folder_seen_from_the_crates() {
    let above = room("above");
    fs::create_dir_all(above.join("crate")).unwrap();
    fs::create_dir_all(above.join("library")).unwrap();
    fs::copy(of_version("seen", "2").join("libmigthumo.a"), above.join("library/libmigthumo.a")).unwrap();
    let here = above.join("crate");
    let said =
        said("seen_run", &[("MIGTHUMO_LIB_DIR", OsStr::new("../library")), ("CARGO_MANIFEST_DIR", here.as_ref())]);
    assert_links(&said, &here.join("../library"));
}

#[test]
fn a_folder_without_a_library() {
    let folder = room("without");
    let said = said("without_run", &[("MIGTHUMO_LIB_DIR", &folder)]);
    let path = folder.join("libmigthumo.a");
    assert_says(&said, "cargo::error=", &[path.to_str().unwrap(), "unset MIGTHUMO_LIB_DIR", "tools/staticlib.sh"]);
}

#[test]
fn a_crate_without_its_repository() {
    let folder = room("alone");
    let said = said("alone_run", &[("CARGO_MANIFEST_DIR", &folder)]);
    match PREBUILT_FITS {
        true => assert_says(&said, "cargo::error=", &["prebuilt/x86_64-linux/libmigthumo.a", "set MIGTHUMO_LIB_DIR"]),
        false => assert_says(&said, "cargo::warning=", &["MIGTHUMO_LIB_DIR"]),
    }
}

#[test]
fn another_version() {
    for version in ["0", "1", "3", "4294967295"] {
        let folder = of_version("other", version);
        let said = said("other_run", &[("MIGTHUMO_LIB_DIR", &folder)]);
        let found = format!("has version {version}, and this crate is written for version 2");
        assert_says(&said, "cargo::error=", &[&found, folder.to_str().unwrap(), "one checkout", "tools/staticlib.sh"]);
    }
}

#[test]
fn no_version() {
    let functions = "#[no_mangle]\npub extern \"C\" fn migthumo_add() -> u32 { 5 }";
    let folder = library("old", functions);
    let said = said("old_run", &[("MIGTHUMO_LIB_DIR", &folder)]);
    assert_says(&said, "cargo::error=", &["has no version", "migthumo_version", "version 2", "one checkout"]);
}

#[test]
fn a_library_that_does_not_link() {
    let folder = room("broken");
    fs::write(folder.join("libmigthumo.a"), "migthumo_version stands here, and this is no archive").unwrap();
    let said = said("broken_run", &[("MIGTHUMO_LIB_DIR", &folder)]);
    assert_says(
        &said,
        "cargo::error=",
        &["could not be tested: a program that links it can't be built (error", "probe.log"],
    );
}

#[test]
fn no_linker_and_no_compiler() {
    let folder = of_version("unlinked", "2");
    let linker = [("MIGTHUMO_LIB_DIR", folder.as_os_str()), ("RUSTC_LINKER", OsStr::new("/no/such/linker"))];
    assert_says(&said("no_linker", &linker), "cargo::error=", &["could not be tested", "/no/such/linker"]);
    let compiler = [("MIGTHUMO_LIB_DIR", folder.as_os_str()), ("RUSTC", OsStr::new("/no/such/rustc"))];
    assert_says(
        &said("no_compiler", &compiler),
        "cargo::error=",
        &["could not be tested", "/no/such/rustc can't be run"],
    );
}

#[test]
fn flags_reach_the_program_that_asks() {
    let folder = of_version("flags", "2");
    let flags = |flags| [("MIGTHUMO_LIB_DIR", folder.as_os_str()), ("CARGO_ENCODED_RUSTFLAGS", OsStr::new(flags))];
    assert_links(&said("flags_run", &flags("-Copt-level=1\x1f-Dwarnings\x1f--cfg\x1fany")), &folder);
    assert_says(
        &said("flags_bad", &flags("-Cno-such-flag")),
        "cargo::error=",
        &["could not be tested", "no-such-flag"],
    );
}

#[test]
fn other_targets_are_warned_of() {
    let targets = [
        ("aarch64-unknown-linux-gnu", "aarch64", "linux", "64"),
        ("x86_64-pc-windows-msvc", "x86_64", "windows", "64"),
        ("x86_64-apple-darwin", "x86_64", "macos", "64"),
        ("x86_64-unknown-linux-gnux32", "x86_64", "linux", "32"),
        ("x86_64-unknown-none", "x86_64", "none", "64"),
    ];
    for (target, arch, os, width) in targets {
        let variables = [
            ("TARGET", target),
            ("CARGO_CFG_TARGET_ARCH", arch),
            ("CARGO_CFG_TARGET_OS", os),
            ("CARGO_CFG_TARGET_POINTER_WIDTH", width),
        ];
        let said = said("target_run", &variables);
        assert_says(&said, "cargo::warning=", &[target, "x86_64 Linux", "MIGTHUMO_LIB_DIR"]);
    }
}

#[test]
fn a_library_for_another_target_is_linked_untested() {
    let folder = of_version("foreign", "2");
    let variables = [
        ("MIGTHUMO_LIB_DIR", folder.as_os_str()),
        ("TARGET", OsStr::new("riscv64gc-unknown-linux-gnu")),
        ("CARGO_CFG_TARGET_ARCH", OsStr::new("riscv64")),
    ];
    let said = said("foreign_run", &variables);
    assert_eq!(lines(&said, "cargo::rustc-link-lib="), ["static=migthumo"]);
    let warnings = lines(&said, "cargo::warning=");
    assert!(warnings.len() == 1 && lines(&said, "cargo::error=").is_empty(), "{said:?}");
    assert!(warnings[0].contains("was not tested") && warnings[0].contains("riscv64gc-unknown-linux-gnu"), "{said:?}");
}

#[test]
fn another_c_library_is_tested_on_this_machine() {
    let folder = of_version("musl", "1");
    let variables = [
        ("MIGTHUMO_LIB_DIR", folder.as_os_str()),
        ("TARGET", OsStr::new("this-machine-with-another-c-library")),
        ("RUSTC_LINKER", OsStr::new("/no/such/linker")),
    ];
    assert_says(&said("musl_run", &variables), "cargo::error=", &["has version 1"]);
}

#[test]
fn documents_need_no_library() {
    let folder = room("documents");
    let said = said("documents_run", &[("DOCS_RS", OsStr::new("1")), ("CARGO_MANIFEST_DIR", folder.as_ref())]);
    assert!(said.iter().all(|line| line.starts_with("cargo::rerun-if-env-changed=")), "{said:?}");
}
