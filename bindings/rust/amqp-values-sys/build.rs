//! Links `libamqp_values.a`: that of the folder AMQP_VALUES_LIB_DIR, or the one that cc and ar make of what generated/ has for
//! the target, or, if it has nothing, the one that pkg-config knows.

use std::path::{Path, PathBuf};
use std::process::{exit, Command};
use std::{env, ffi::OsStr};

const ARCHIVE: &str = "libamqp_values.a";
const NAMED_BY: &str = "AMQP_VALUES_LIB_DIR";

/// Ends the build with a sentence. (A panic would print more.)
fn fail(why: String) -> ! {
    eprintln!("{why}");
    exit(1)
}

fn of_cargo(name: &str) -> String {
    env::var(name).expect("cargo sets it")
}

/// A variable that users set. If it changes, cargo runs this program again.
fn of_user(name: &str) -> Option<String> {
    println!("cargo:rerun-if-env-changed={name}");
    env::var(name).ok().filter(|it| !it.is_empty())
}

/// Runs the program that CC or AR names, or for one target CC_aarch64_unknown_linux_gnu and the like, or else the default.
fn run(variable: &str, default: &str, words: &[&OsStr]) {
    let target = of_cargo("TARGET");
    let of_target = format!("{variable}_{}", target.replace('-', "_"));
    let of_kind = format!("{}_{variable}", if target == of_cargo("HOST") { "HOST" } else { "TARGET" });
    let named = [&of_target, &of_kind, variable].into_iter().find_map(of_user);
    let program = named.unwrap_or_else(|| default.to_string());
    // (`ccache gcc` is a program and a word for it)
    let mut parts = program.split_whitespace();
    let wrong = match Command::new(parts.next().unwrap_or_default()).args(parts).args(words).status() {
        Ok(status) if status.success() => return,
        Ok(status) => status.to_string(),
        Err(why) => why.to_string(),
    };
    fail(format!("`{program}` failed ({wrong}): {variable} or {of_target} names another"))
}

/// Makes the archive of the assembly in a folder; where it is.
fn assembled(sources: &Path, processor: &str) -> PathBuf {
    let (host, out) = (of_cargo("HOST"), PathBuf::from(of_cargo("OUT_DIR")));
    let is_native = host.starts_with(&format!("{processor}-")) && host.contains("-linux-");
    // (the code is the same for musl)
    let cross = format!("{processor}-linux-gnu-");
    let (cc, ar) = if is_native { ("cc".into(), "ar".into()) } else { (cross.clone() + "gcc", cross + "ar") };
    let objects = ["amqp_c", "amqp_c_alloc"].map(|name| {
        let (source, object) = (sources.join(name).with_extension("s"), out.join(name).with_extension("o"));
        println!("cargo:rerun-if-changed={}", source.display());
        run("CC", &cc, &["-c".as_ref(), "-o".as_ref(), object.as_ref(), source.as_ref()]);
        object
    });
    run("AR", &ar, &["rcs".as_ref(), out.join(ARCHIVE).as_ref(), objects[0].as_ref(), objects[1].as_ref()]);
    out
}

/// The folder of an installed library of this crate's version, for this machine.
fn installed() -> Option<PathBuf> {
    of_user("PKG_CONFIG_PATH");
    let asked = ["--variable=libdir", concat!("amqp_values = ", env!("CARGO_PKG_VERSION"))];
    let done = Command::new("pkg-config").args(asked).output().ok()?;
    let folder = PathBuf::from(String::from_utf8_lossy(&done.stdout).trim());
    let is_installed = done.status.success() && folder.join(ARCHIVE).is_file();
    (is_installed && of_cargo("TARGET") == of_cargo("HOST")).then_some(folder)
}

/// The folder that AMQP_VALUES_LIB_DIR names.
fn named(folder: PathBuf) -> PathBuf {
    let archive = folder.join(ARCHIVE);
    if folder.is_relative() {
        fail(format!("{NAMED_BY} has to be an absolute path, and is {}", folder.display()));
    }
    if !archive.is_file() {
        fail(format!("{NAMED_BY} is {}, and that has no {ARCHIVE}", folder.display()));
    }
    println!("cargo:rerun-if-changed={}", archive.display());
    folder
}

fn main() {
    let (processor, system) = (of_cargo("CARGO_CFG_TARGET_ARCH"), of_cargo("CARGO_CFG_TARGET_OS"));
    let own = PathBuf::from(of_cargo("CARGO_MANIFEST_DIR"));
    // The drop-in has a copy in this crate.
    let copy = own.join("generated");
    let generated = if copy.is_dir() { copy } else { own.join("../../../generated") };
    let sources = generated.join(format!("{processor}-{system}"));
    let folder = if let Some(it) = of_user(NAMED_BY) {
        named(it.into())
    } else if sources.is_dir() {
        assembled(&sources, &processor)
    } else if let Some(it) = installed() {
        it
    } else if generated.is_dir() {
        let only = "amqp_values has compiled code for x86_64 and aarch64 Linux only";
        fail(format!("{only}, and not for {processor} {system}: see docs/PLATFORMS.md"))
    } else {
        fail(format!("{} isn't there: {NAMED_BY} can name a folder with {ARCHIVE}", generated.display()))
    };
    println!("cargo:rustc-link-search=native={}", folder.display());
    println!("cargo:rustc-link-lib=static=amqp_values");
}
