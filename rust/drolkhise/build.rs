//! Finds the archive libdesk.a: in the folder that DROLKHISE_LIB_DIR names, or by `tools/build desk`, which proves it and writes it.
use std::env;
use std::path::{Path, PathBuf};
use std::process::{exit, Command};

const FOLDER: &str = "DROLKHISE_LIB_DIR";
const ARCHIVE: &str = "libdesk.a";

fn fail(why: &str) -> ! {
    eprintln!("drolkhise: {why}");
    exit(1)
}

/// The folder of the archive that `rt` writes in this crate's repository.
fn proved() -> PathBuf {
    let root = Path::new(&env::var("CARGO_MANIFEST_DIR").unwrap()).join("../..");
    if !root.join("crates/desk").is_dir() {
        fail(&format!("{FOLDER} is not set, and {} is not the repository that {ARCHIVE} is made in. Set it to the folder of {ARCHIVE}.", root.display()));
    }
    match Command::new(root.join("tools/build")).arg("desk").current_dir(&root).output() {
        Err(why) => fail(&format!("{FOLDER} is not set, and tools/build cannot be run ({why}). Set it to the folder of {ARCHIVE}.")),
        Ok(ran) if !ran.status.success() => {
            let said = String::from_utf8_lossy(&ran.stdout).into_owned() + &String::from_utf8_lossy(&ran.stderr);
            let lines: Vec<&str> = said.lines().collect();
            fail(&format!(
                "{FOLDER} is not set, and `tools/build desk` failed; the end of what it said:\n{}\nSet {FOLDER} to the folder of {ARCHIVE}, or put `rt`, the Rattle toolchain, on PATH.",
                lines[lines.len().saturating_sub(12)..].join("\n")
            ))
        }
        Ok(_) => root.join("target/staticlib"),
    }
}

fn main() {
    println!("cargo:rerun-if-changed=build.rs");
    println!("cargo:rerun-if-env-changed={FOLDER}");
    let target = (env::var("CARGO_CFG_TARGET_ARCH").unwrap(), env::var("CARGO_CFG_TARGET_OS").unwrap());
    if target != ("x86_64".into(), "linux".into()) {
        fail(&format!(
            "{ARCHIVE} is for x86-64 Linux, and this is built for {} {}. `cargo build --target x86_64-unknown-linux-gnu` builds for the former.",
            target.0, target.1
        ));
    }
    let named = env::var_os(FOLDER).map(PathBuf::from);
    let is_named = named.is_some();
    let folder = named.unwrap_or_else(proved);
    let archive = folder.join(ARCHIVE);
    if !archive.is_file() {
        let who = if is_named { FOLDER } else { "`tools/build desk`" };
        fail(&format!("there is no {}, and by {who} there should be.", archive.display()));
    }
    println!("cargo:rerun-if-changed={}", archive.display());
    println!("cargo:rustc-link-search=native={}", folder.display());
    println!("cargo:rustc-link-lib=static=desk");
}
