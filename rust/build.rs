//! Finds `libdawnstook.a` and links it: in the folder that `DAWNSTOOK_DIR` names, else in the repository's `target/dawnstook`, which
//! the repository's `tools/archive` makes where it is not there. With `DAWNSTOOK_NO_LINK` set nothing is looked for: enough for
//! `cargo check` and `cargo doc`, on any machine.
use std::path::{Path, PathBuf};
use std::process::{exit, Command};
use std::{env, fs};

const ARCHIVE: &str = "libdawnstook.a";

fn main() {
    println!("cargo:rerun-if-changed=build.rs");
    println!("cargo:rerun-if-env-changed=DAWNSTOOK_DIR");
    println!("cargo:rerun-if-env-changed=DAWNSTOOK_NO_LINK");
    if env::var_os("DAWNSTOOK_NO_LINK").is_some() {
        println!("cargo:warning=DAWNSTOOK_NO_LINK is set: no archive is linked, so that nothing that calls it can be linked either");
        return;
    }
    for_this_target();
    let archive = match env::var_os("DAWNSTOOK_DIR") {
        Some(folder) => named(Path::new(&folder)),
        None => of_the_repository(),
    };
    let Some(lib) = archive.parent() else { fail("the archive's path has no folder") };
    same_version(lib);
    println!("cargo:rerun-if-changed={}", archive.display());
    println!("cargo:rustc-link-search=native={}", lib.display());
    println!("cargo:rustc-link-lib=static=dawnstook");
}

fn fail(why: &str) -> ! {
    eprintln!("dawnstook: {why}");
    exit(1)
}

fn of(variable: &str) -> String {
    env::var(variable).unwrap_or_default()
}

fn for_this_target() {
    let target = of("TARGET");
    if of("CARGO_CFG_TARGET_ARCH") != "x86_64" || of("CARGO_CFG_TARGET_POINTER_WIDTH") != "64" {
        fail(&format!("this archive is for x86-64 and the target is {target}; DAWNSTOOK_NO_LINK=1 checks and documents without it"));
    }
    if ["windows", "macos", "ios", "uefi"].contains(&of("CARGO_CFG_TARGET_OS").as_str()) {
        fail(&format!("this archive has ELF objects and the target is {target}"));
    }
}

fn named(folder: &Path) -> PathBuf {
    for archive in [folder.join("lib").join(ARCHIVE), folder.join(ARCHIVE)] {
        if archive.is_file() {
            return archive;
        }
    }
    fail(&format!("DAWNSTOOK_DIR is {}, which has neither lib/{ARCHIVE} nor {ARCHIVE}", folder.display()))
}

fn of_the_repository() -> PathBuf {
    let top = Path::new(&of("CARGO_MANIFEST_DIR")).join("..");
    let archive = top.join("target/dawnstook/lib").join(ARCHIVE);
    if archive.is_file() {
        return archive;
    }
    let maker = top.join("tools/archive");
    if !maker.is_file() {
        fail(&format!("no {ARCHIVE}: set DAWNSTOOK_DIR to the folder that the repository's tools/archive made"));
    }
    match Command::new(&maker).output() {
        Ok(made) if made.status.success() && archive.is_file() => archive,
        Ok(made) => fail(&format!(
            "no {ARCHIVE}, and tools/archive could not make it: {}; set DAWNSTOOK_DIR to a folder that has it",
            String::from_utf8_lossy(&made.stderr).trim()
        )),
        Err(why) => fail(&format!("no {ARCHIVE}, and {} does not run: {why}", maker.display())),
    }
}

/// The header that was copied with the archive says its version.
fn same_version(lib: &Path) {
    let header = lib.join("../include/dawnstook.h");
    if header.is_file() {
        println!("cargo:rerun-if-changed={}", header.display());
    }
    let Ok(text) = fs::read_to_string(&header) else { return };
    let version = text.lines().find_map(|line| line.strip_prefix("#define DAWNSTOOK_VERSION \"")?.strip_suffix('"'));
    let own = of("CARGO_PKG_VERSION");
    if version != Some(own.as_str()) {
        fail(&format!("this crate is of version {own}, and the archive beside {} of {}", header.display(), version.unwrap_or("none")));
    }
}
