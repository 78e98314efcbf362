//! Finds liboskuramos.a and has it linked, or says why that can't be. It is looked for in the folder that OSKURAMOS_LIB_DIR names, else in the
//! repository (where `make` writes it, or tools/archive), else where pkg-config knows it (where `make install` has put it).

use std::env;
use std::fs;
use std::path::{Path, PathBuf};
use std::process::Command;

const FILE: &str = "liboskuramos.a";

fn main() {
    println!("cargo::rerun-if-env-changed=OSKURAMOS_LIB_DIR");
    println!("cargo::rerun-if-env-changed=OSKURAMOS_NO_ARCHIVE");
    println!("cargo::rerun-if-env-changed=PKG_CONFIG_PATH");
    // to check or document the crate: nothing is linked then
    if env::var_os("OSKURAMOS_NO_ARCHIVE").is_some() || env::var_os("DOCS_RS").is_some() {
        return;
    }
    match find().and_then(|folder| fits(&folder.join(FILE)).map(|()| folder)) {
        Ok(folder) => {
            println!("cargo::rustc-link-search=native={}", folder.display());
            println!("cargo::rustc-link-lib=static=oskuramos");
        }
        Err(why) => {
            for line in why.lines().chain(["To check or document the crate without its archive, set OSKURAMOS_NO_ARCHIVE=1"]) {
                println!("cargo::error={line}");
            }
        }
    }
}

// ---- where it is
fn find() -> Result<PathBuf, String> {
    if let Some(folder) = env::var_os("OSKURAMOS_LIB_DIR").map(PathBuf::from) {
        let archive = folder.join(FILE);
        println!("cargo::rerun-if-changed={}", archive.display());
        return if archive.exists() { Ok(folder) } else { Err(format!("OSKURAMOS_LIB_DIR is set, and there is no {}", archive.display())) };
    }
    let crate_folder = PathBuf::from(env::var("CARGO_MANIFEST_DIR").unwrap());
    let beside = crate_folder.parent().unwrap_or(&crate_folder).join("out");
    let archive = beside.join(FILE);
    println!("cargo::rerun-if-changed={}", archive.display());
    if archive.exists() {
        return Ok(beside);
    }
    installed().unwrap_or_else(|| {
        Err(format!(
            "there is no {}, and pkg-config knows no oskuramos.\nRun `make` in the repository, or `make install` there, or name \
             the folder that has {FILE} in OSKURAMOS_LIB_DIR",
            archive.display()
        ))
    })
}

/// The folder that pkg-config tells, where the library there has this crate's version.
fn installed() -> Option<Result<PathBuf, String>> {
    let (version, folder) = (pkg_config("--modversion")?, PathBuf::from(pkg_config("--variable=libdir")?));
    let wanted = env::var("CARGO_PKG_VERSION").unwrap();
    Some(if version == wanted {
        Ok(folder)
    } else {
        Err(format!("the library in {} is of version {version}, and this crate of {wanted}: install that one", folder.display()))
    })
}

fn pkg_config(question: &str) -> Option<String> {
    let output = Command::new("pkg-config").args([question, "oskuramos"]).output().ok()?;
    let answer = String::from_utf8(output.stdout).ok()?.trim().to_string();
    (output.status.success() && !answer.is_empty()).then_some(answer)
}

// ---- whether this build can link it
fn fits(archive: &Path) -> Result<(), String> {
    let bytes = fs::read(archive).map_err(|e| format!("{} can't be read: {e}", archive.display()))?;
    let (arch, os) = (env::var("CARGO_CFG_TARGET_ARCH").unwrap(), env::var("CARGO_CFG_TARGET_OS").unwrap());
    let machine = machine(&bytes).ok_or(format!("{} holds no object for Linux", archive.display()))?;
    if (machine, "linux") == (arch.as_str(), os.as_str()) {
        return Ok(());
    }
    let target = env::var("TARGET").unwrap();
    Err(format!(
        "{} is there, but it is for {machine} Linux, and this build is for {target}.\nBuild with `--target {machine}-unknown-linux-gnu`, and run \
         the program under an emulator of {machine}",
        archive.display()
    ))
}

/// The processor of the first ELF object.
fn machine(archive: &[u8]) -> Option<&'static str> {
    let object = archive.windows(4).position(|four| four == b"\x7fELF")?;
    match archive.get(object + 18..object + 20)? {
        [62, 0] => Some("x86_64"),
        [183, 0] => Some("aarch64"),
        _ => Some("another processor's"),
    }
}
