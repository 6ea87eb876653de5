//! That nothing is lent to a library that isn't this crate's, and that a library that isn't there is asked for. Needs `cc` and `rustc`, as every build here does.

use arbiter::sys::VERSION;
use std::path::{Path, PathBuf};
use std::process::Command;

/// In the library's place: every number is the one that the environment says, and a fresh record isn't.
const STAND_IN: &str = r#"
#include <stdint.h>
#include <stdlib.h>
typedef struct { uint32_t kind, refusal; uint64_t value; } answer;
typedef struct { answer told; uint32_t quotient, remainder; } analysis;
typedef struct { uint8_t positions[8]; uint32_t grants; uint8_t counts[8]; } record;
typedef struct { answer told; uint32_t rows[8][4]; uint64_t finished; } trial;
static uint32_t number(const char *name) { return (uint32_t)atoi(getenv(name)); }
static answer any(void) { return (answer){ number("KIND"), number("REFUSAL"), 0 }; }
uint32_t arbiter_version(void) { return number("VERSION"); }
answer arbiter_read(void) { return any(); }
analysis arbiter_analyse(void) { return (analysis){ any(), 0, 0 }; }
answer arbiter_bid(void) { return any(); }
answer arbiter_again(void) { return any(); }
answer arbiter_route(void) { return any(); }
answer arbiter_locate(void) { return any(); }
answer arbiter_clean(void) { return any(); }
trial arbiter_trial(void) { return (trial){ any(), { { 0 } }, 0 }; }
record arbiter_fresh(void) { return (record){ { 0 }, 0, { 0 } }; }
"#;

/// Makes one call, which the first argument names.
const CALLER: &str = r#"
use arbiter::{plain, Record, Settings};
fn main() {
    let call = std::env::args().nth(1).unwrap();
    let mut record = Record::new([0; 8], 0, [0; 8]);
    let answer = match &call[..] {
        "read" => plain::read(&[]).map(|_| ()),
        "analyse" => plain::analyse(&[], &mut [], &mut []).map(|_| ()),
        "bid" => plain::bid(&mut record, &[], &[], 0, Settings::OFF).map(|_| ()),
        "again" => plain::again(&mut record, &[]),
        "route" => plain::route(&record, &[], &[], &mut []).map(|_| ()),
        "locate" => plain::locate([0; 8], &[], 1).map(|_| ()),
        "clean" => plain::clean(&[], &mut []).map(|_| ()),
        "trial" => plain::trial(&[], &[], &[], 0, Settings::OFF).map(|_| ()),
        _ => Ok(record = Record::fresh()),
    };
    println!("{answer:?} {record:?}");
}
"#;

const CALLS: [&str; 9] = ["read", "analyse", "bid", "again", "route", "locate", "clean", "trial", "fresh"];

/// An empty folder of this name for what a test builds.
fn folder(name: &str) -> PathBuf {
    let folder = Path::new(env!("CARGO_TARGET_TMPDIR")).join(name);
    let _ = std::fs::remove_dir_all(&folder);
    std::fs::create_dir_all(&folder).unwrap();
    folder
}

/// Runs a compiler in this folder.
fn build(folder: &Path, compiler: &str, arguments: &[&str]) {
    let output = Command::new(compiler).args(arguments).current_dir(folder).output().unwrap_or_else(|why| panic!("{compiler}: {why}"));
    assert!(output.status.success(), "{compiler} {arguments:?}: {}", String::from_utf8_lossy(&output.stderr));
}

/// The caller, with the crate from its source and the stand-in.
fn caller() -> PathBuf {
    let folder = folder("caller");
    std::fs::write(folder.join("stand_in.c"), STAND_IN).unwrap();
    std::fs::write(folder.join("caller.rs"), CALLER).unwrap();
    build(&folder, "cc", &["-c", "stand_in.c"]);
    let source = concat!(env!("CARGO_MANIFEST_DIR"), "/src/lib.rs");
    build(&folder, "rustc", &["--edition=2021", "--crate-name=arbiter", "--crate-type=rlib", source]);
    build(&folder, "rustc", &["--edition=2021", "--extern=arbiter=libarbiter.rlib", "-Clink-arg=stand_in.o", "caller.rs"]);
    folder.join("caller")
}

/// What the caller ends with and says as it makes this call of a stand-in with these numbers.
fn call(caller: &Path, call: &str, [version, kind, refusal]: [u32; 3]) -> (Option<i32>, String) {
    let numbers = [("VERSION", version), ("KIND", kind), ("REFUSAL", refusal)].map(|(name, number)| (name, number.to_string()));
    let output = Command::new(caller).arg(call).envs(numbers).env("RUST_BACKTRACE", "0").output().unwrap();
    (output.status.code(), String::from_utf8([output.stdout, output.stderr].concat()).unwrap())
}

#[test]
fn no_call_reaches_another_library() {
    const PANICKED: Option<i32> = Some(101);
    let caller = caller();
    let of_version = concat!("the linked libarbiter.a is version 7.18.19, and this crate is for version ", env!("CARGO_PKG_VERSION"));
    for name in CALLS {
        // With the right numbers nothing is wrong: a refusal, and a fresh record.
        let (status, said) = call(&caller, name, [VERSION, 0, 1]);
        assert_eq!(status, Some(0), "{name}: {said}");
        let (status, said) = call(&caller, name, [71819, 0, 1]);
        assert!(status == PANICKED && said.contains(of_version), "{name}: {said}");
    }
    // A fresh record is no answer.
    for name in &CALLS[..8] {
        for [kind, refusal] in [[99, 0], [99, 1], [0, 0], [0, 99], [0, 257]] {
            let (status, said) = call(&caller, name, [VERSION, kind, refusal]);
            assert!(status == PANICKED && said.contains(&format!("arbiter_{name} gave an answer that it hasn't got")), "{name}: {said}");
        }
    }
}

#[test]
fn the_package_has_the_version_of_the_library() {
    let number = env!("CARGO_PKG_VERSION").split('.').fold(0, |number, part| 100 * number + part.parse::<u32>().unwrap());
    assert_eq!(number, VERSION);
}

#[test]
fn the_build_script_says_what_to_run_if_the_library_is_not_there() {
    let folder = folder("build_script");
    let source = concat!(env!("CARGO_MANIFEST_DIR"), "/build.rs");
    build(&folder, "rustc", &["--edition=2021", "--crate-name=script", source]);
    let run = |library_folder: &Path| Command::new(folder.join("script")).env("ARBITER_LIB_DIR", library_folder).output().unwrap();

    let missing = run(&folder);
    let complaint = String::from_utf8(missing.stderr).unwrap();
    assert_eq!(missing.status.code(), Some(1));
    assert!(complaint.contains(&format!("there is no {}", folder.join("libarbiter.a").display())), "{complaint}");
    assert!(complaint.contains("'tools/build arbiter'") && complaint.contains("ARBITER_LIB_DIR"), "{complaint}");

    std::fs::write(folder.join("libarbiter.a"), "").unwrap();
    assert!(run(&folder).status.success());
    let relative = run(Path::new("."));
    assert_eq!(relative.status.code(), Some(1));
    assert!(String::from_utf8(relative.stderr).unwrap().contains("has to be an absolute path"));
}
