//! Finds the library, or makes it: in the folder that `FILLAQUT_LIB_DIR` names; else in `lib/TARGET` of the crate, where a
//! packing has the archive for its target; else, where nothing is cross-compiled, by pkg-config; else a C compiler makes it of
//! `source/fillaqut.c`, of the crate or of its tree. The archive is linked where there is one; the shared library where there is
//! not, or where `FILLAQUT_STATIC` is 0.

use std::env;
use std::ffi::OsString;
use std::path::{Path, PathBuf};
use std::process::Command;

fn main() {
    for name in ["PKG_CONFIG", "PKG_CONFIG_PATH"] {
        println!("cargo:rerun-if-env-changed={name}");
    }
    if env::var_os("DOCS_RS").is_some() {
        return; // nothing is linked there
    }
    let found = match variable("FILLAQUT_LIB_DIR") {
        Some(named) => Some(PathBuf::from(named)),
        None => packed_archive().or_else(known_to_pkg_config),
    };
    match (found, source()) {
        (Some(folder), _) => link(&folder),
        (None, Some(file)) if !takes_shared() => link(&made_of(&file)),
        _ => panic!(
            "there is no libfillaqut.a for {}, pkg-config knows no fillaqut, and there is no source/fillaqut.c to make it of: install it \
             (packages/c/install PREFIX), or name the folder of libfillaqut.a in FILLAQUT_LIB_DIR",
            target()
        ),
    }
}

/// A variable of the environment. Where it changes, the library is looked for anew.
fn variable(name: &str) -> Option<OsString> {
    println!("cargo:rerun-if-env-changed={name}");
    env::var_os(name)
}

/// What cargo says.
fn said(name: &str) -> String {
    env::var(name).unwrap_or_else(|why| panic!("{name}: {why}"))
}

fn target() -> String {
    said("TARGET")
}

fn crate_folder() -> PathBuf {
    PathBuf::from(said("CARGO_MANIFEST_DIR"))
}

fn takes_shared() -> bool {
    variable("FILLAQUT_STATIC").is_some_and(|it| it == "0")
}

/// Links the library of this folder.
fn link(folder: &Path) {
    let folder = folder.canonicalize().unwrap_or_else(|why| panic!("{}: {why}", folder.display()));
    let archive = folder.join("libfillaqut.a");
    let end = match said("CARGO_CFG_TARGET_OS").as_str() {
        "windows" => "dll.a",
        "macos" => "dylib",
        _ => "so",
    };
    let shared = folder.join(format!("libfillaqut.{end}"));
    let (kind, file) = if takes_shared() || !archive.exists() { ("dylib", shared) } else { ("static", archive) };
    assert!(file.exists(), "there is no {}", file.display());
    println!("cargo:rerun-if-changed={}", file.display());
    println!("cargo:rustc-link-search=native={}", folder.display());
    println!("cargo:rustc-link-lib={kind}=fillaqut");
}

/// The folder of the archive that the crate has for this target.
fn packed_archive() -> Option<PathBuf> {
    let folder = crate_folder().join("lib").join(target());
    (!takes_shared() && folder.join("libfillaqut.a").exists()).then_some(folder)
}

/// The folder that pkg-config knows, which is for this machine.
fn known_to_pkg_config() -> Option<PathBuf> {
    if said("HOST") != target() {
        return None;
    }
    let tool = env::var_os("PKG_CONFIG").unwrap_or("pkg-config".into());
    let asked = Command::new(tool).args(["--variable=libdir", "fillaqut"]).output().ok()?;
    let folder = String::from_utf8_lossy(&asked.stdout).trim().to_owned();
    (asked.status.success() && !folder.is_empty()).then_some(folder.into())
}

/// The file of C: that of the crate, or the one that packages/c/build --source has made in its tree.
fn source() -> Option<PathBuf> {
    let folders = ["source", "../../out/source"].map(|folder| crate_folder().join(folder));
    folders.into_iter().map(|folder| folder.join("fillaqut.c")).find(|file| file.exists())
}

/// The folder of the archive that a C compiler makes of this file.
fn made_of(file: &Path) -> PathBuf {
    println!("cargo:rerun-if-changed={}", file.display());
    let folder = PathBuf::from(said("OUT_DIR"));
    let (object, archive) = (folder.join("fillaqut.o"), folder.join("libfillaqut.a"));
    let mut words = vec!["-std=c99", "-O2", "-ffunction-sections", "-fdata-sections"];
    if said("CARGO_CFG_TARGET_OS") != "windows" {
        words.push("-fPIC");
    }
    run(tool("CC", "cc", "gcc").args(words).arg("-c").arg(file).arg("-o").arg(&object));
    let _ = std::fs::remove_file(&archive); // what an earlier run has put there
    run(tool("AR", "ar", "ar").arg("crs").arg(&archive).arg(&object));
    folder
}

/// A tool for the target: the one that `CC_x86_64_unknown_linux_gnu` names, or `CC`; else this machine's own, or the one that
/// has the target in its name. An `ar` of that name may be missing, as with Debian's musl-tools: then this machine's own is taken.
fn tool(name: &str, own: &str, ending: &str) -> Command {
    let of_target = format!("{name}_{}", target().replace('-', "_"));
    let named = variable(&of_target).or_else(|| variable(name)).map(|named| named.to_string_lossy().into_owned());
    let words = named.unwrap_or_else(|| match prefix().map(|prefix| format!("{prefix}-{ending}")) {
        Some(other) if own != "ar" || is_there(&other) => other,
        _ => own.to_owned(),
    });
    let mut words = words.split_whitespace();
    let mut made = Command::new(words.next().unwrap_or(own));
    made.args(words);
    made
}

fn is_there(tool: &str) -> bool {
    Command::new(tool).arg("--version").output().is_ok()
}

/// What the tools for another machine begin with. For C compilers `riscv64gc` is `riscv64`.
fn prefix() -> Option<String> {
    let target = target();
    if said("HOST") == target {
        return None;
    }
    let machine = match target.split('-').next().unwrap_or_default() {
        "riscv64gc" => "riscv64",
        other => other,
    };
    match target.as_str() {
        "x86_64-pc-windows-gnu" => Some("x86_64-w64-mingw32".to_owned()),
        _ if said("CARGO_CFG_TARGET_OS") == "linux" => {
            Some(format!("{machine}-linux-{}", said("CARGO_CFG_TARGET_ENV")))
        }
        _ => None,
    }
}

fn run(command: &mut Command) {
    let ended =
        command.status().unwrap_or_else(|why| panic!("{command:?}: {why}: name a C compiler in CC, and its ar in AR"));
    assert!(ended.success(), "{command:?} fails");
}
