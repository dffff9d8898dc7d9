//! Finds the library libyoyoash, and links it: from the folder YOYOASH_LIB_DIR, else by pkg-config, else from the
//! folder lib of this crate or of the release that has it, else from the repository's dist folder.
use std::path::{Path, PathBuf};
use std::process::{self, Command};
use std::{env, fs};

const ARCHIVE: &str = "libyoyoash.a";

fn main() {
    for name in ["YOYOASH_LIB_DIR", "PKG_CONFIG", "PKG_CONFIG_PATH"] {
        println!("cargo:rerun-if-env-changed={name}");
    }
    let target = |part: &str| env::var(format!("CARGO_CFG_TARGET_{part}")).unwrap_or_default();
    if target("OS") != "linux" || target("ARCH") != "x86_64" {
        fail("the library is for x86-64 Linux; build for the target x86_64-unknown-linux-gnu");
    }
    let folder = match env::var_os("YOYOASH_LIB_DIR").map(PathBuf::from) {
        Some(folder) if folder.join(ARCHIVE).is_file() => folder,
        Some(folder) => missing(&folder.join(ARCHIVE)),
        None => by_pkg_config().or_else(next_to_the_crate).unwrap_or_else(|| missing(Path::new(ARCHIVE))),
    };
    println!("cargo:rerun-if-changed={}", folder.join(ARCHIVE).display());
    println!("cargo:rustc-link-search=native={}", folder.display());
    println!("cargo:rustc-link-lib=static=yoyoash");
}

/// Returns the folder of the installed library, if it has the crate's version and the archive.
fn by_pkg_config() -> Option<PathBuf> {
    let program = env::var_os("PKG_CONFIG").unwrap_or_else(|| "pkg-config".into());
    let ask = |option: &str| {
        Command::new(&program).args([option, "yoyoash"]).output().ok().filter(|run| run.status.success())
    };
    ask(&format!("--exact-version={}", env!("CARGO_PKG_VERSION")))?;
    let folder = String::from_utf8(ask("--variable=libdir")?.stdout).ok()?;
    Some(PathBuf::from(folder.trim())).filter(|folder| folder.join(ARCHIVE).is_file())
}

/// Returns the lib folder of this crate, or of the release that has it, or the repository's dist folder.
fn next_to_the_crate() -> Option<PathBuf> {
    let here = PathBuf::from(env::var_os("CARGO_MANIFEST_DIR")?);
    let folders = ["lib", "../lib", "../../dist/x86_64-linux"].map(|folder| here.join(folder));
    folders.into_iter().find(|folder| folder.join(ARCHIVE).is_file()).and_then(|folder| fs::canonicalize(folder).ok())
}

fn missing(file: &Path) -> ! {
    fail(&format!("{} is missing; set YOYOASH_LIB_DIR to the folder that has libyoyoash.a", file.display()))
}

fn fail(text: &str) -> ! {
    eprintln!("yoyoash: {text}");
    process::exit(1);
}
