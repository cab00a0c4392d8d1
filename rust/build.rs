//! Finds the static library of the proved engine, or has it written, and says how to link it.

use std::env;
use std::fs;
use std::path::{Path, PathBuf};
use std::process::{Command, ExitCode};

/// The folder that has the library, before all other places.
const VARIABLE: &str = "MITYVURNO_LIB_DIR";

/// The library's names: installed, and as tools/archive writes it.
const NAMES: [&str; 2] = ["mityvurno", "engine_c"];

fn main() -> ExitCode {
    println!("cargo:rerun-if-changed=build.rs");
    println!("cargo:rerun-if-env-changed={VARIABLE}");
    match find().and_then(of_this_version) {
        Ok((folder, name)) => {
            println!("cargo:rerun-if-changed={}", library(&folder, name).display());
            println!("cargo:rustc-link-search=native={}", folder.display());
            println!("cargo:rustc-link-lib=static={name}");
            ExitCode::SUCCESS
        }
        Err(message) => {
            eprintln!("mityvurno: {message}");
            ExitCode::FAILURE
        }
    }
}

fn library(folder: &Path, name: &str) -> PathBuf {
    folder.join(format!("lib{name}.a"))
}

/// The folder with the name of the library that it has.
fn in_folder(folder: &Path) -> Option<(PathBuf, &'static str)> {
    let name = NAMES.into_iter().find(|name| library(folder, name).is_file())?;
    Some((folder.to_path_buf(), name))
}

/// The first of the places that the crate's front page names.
fn find() -> Result<(PathBuf, &'static str), String> {
    let target = env::var("CARGO_CFG_TARGET_ARCH").unwrap_or_default();
    if target != "x86_64" {
        return Err(format!("the static library is for x86-64, and this build is for {target}"));
    }
    // A build script runs in its crate's folder.
    let own = env::current_dir().map_err(|e| format!("the crate's folder: {e}"))?;
    if let Some(folder) = env::var_os(VARIABLE) {
        let folder = own.join(folder);
        return in_folder(&folder).ok_or_else(|| {
            format!("{VARIABLE} names {}, where neither libmityvurno.a nor libengine_c.a is; expected the folder of one of them", folder.display())
        });
    }
    let repository = own.parent().unwrap_or(&own);
    let written = repository.join("crates/engine_c/out");
    if let Some(found) = in_folder(&written).or_else(|| in_folder(&repository.join("lib"))) {
        return Ok(found);
    }
    if repository.join("crates.txt").is_file() && prove(repository)? {
        return in_folder(&written).ok_or_else(|| format!("tools/archive has not written {}", library(&written, "engine_c").display()));
    }
    installed().and_then(|folder| in_folder(&folder)).ok_or_else(|| missing(&library(&written, "engine_c")))
}

/// The library, unless the .pc file beside it, as tools/install and tools/release write one, names another version than the crate's.
fn of_this_version((folder, name): (PathBuf, &'static str)) -> Result<(PathBuf, &'static str), String> {
    let file = folder.join("pkgconfig/mityvurno.pc");
    let Ok(text) = fs::read_to_string(&file) else { return Ok((folder, name)) };
    println!("cargo:rerun-if-changed={}", file.display());
    let own = env!("CARGO_PKG_VERSION");
    match text.lines().find_map(|line| line.strip_prefix("Version:")).map(str::trim) {
        Some(version) if version != own => Err(format!("the library in {} has version {version}, and this crate {own}", folder.display())),
        _ => Ok((folder, name)),
    }
}

fn missing(written: &Path) -> String {
    format!(
        "the static library is not there. Do one of these:\n  \
         - set {VARIABLE} to the folder that has libmityvurno.a or libengine_c.a;\n  \
         - run tools/archive in the repository, which writes {};\n  \
         - install the library so that `pkg-config --variable=libdir mityvurno` names its folder",
        written.display()
    )
}

/// Has the library proved and written; false where tools/archive says with status 2 that it can't begin: `rt` is missing.
fn prove(repository: &Path) -> Result<bool, String> {
    let run = Command::new(repository.join("tools/archive")).output().map_err(|e| format!("tools/archive: {e}"))?;
    match run.status.code() {
        Some(0) => Ok(true),
        Some(2) => Ok(false),
        _ => {
            let said = [run.stdout, run.stderr].concat();
            Err(format!("tools/archive ended with {}:\n{}", run.status, String::from_utf8_lossy(&said)))
        }
    }
}

/// The folder that pkg-config names.
fn installed() -> Option<PathBuf> {
    println!("cargo:rerun-if-env-changed=PKG_CONFIG_PATH\ncargo:rerun-if-env-changed=PKG_CONFIG_LIBDIR");
    let run = Command::new("pkg-config").args(["--variable=libdir", "mityvurno"]).output().ok()?;
    let folder = String::from_utf8(run.stdout).ok()?;
    (run.status.success() && !folder.trim().is_empty()).then(|| PathBuf::from(folder.trim()))
}
