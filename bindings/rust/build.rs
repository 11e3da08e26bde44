//! Links libcapi.a: the one that WENDUULIG_LIB names, else target/staticlib/libcapi.a of this repository, built by
//! `tools/build/archive capi` if it is not there or older than crates/.
use std::env;
use std::fs;
use std::io;
use std::path::{Path, PathBuf};
use std::process::{exit, Command};
use std::time::SystemTime;

fn fail(words: &str) -> ! {
    eprintln!("wenduulig: {words}");
    exit(1)
}

/// The library holds machine code for one kind of machine.
fn expect_target() {
    let [arch, os] = ["CARGO_CFG_TARGET_ARCH", "CARGO_CFG_TARGET_OS"].map(|name| env::var(name).unwrap_or_default());
    if (arch.as_str(), os.as_str()) != ("x86_64", "linux") {
        fail(&format!("libcapi.a is for x86-64 Linux only, and the target is {arch} {os}"));
    }
}

fn build(repository: &Path) {
    println!("cargo:warning=proving and building target/staticlib/libcapi.a by `tools/build/archive capi`");
    let log = match Command::new("python3").args(["tools/build/archive", "capi"]).current_dir(repository).output() {
        Ok(log) => log,
        Err(e) => fail(&format!(
            "python3 did not start ({e}); install it and the Rattle kit, or set WENDUULIG_LIB to the path of libcapi.a"
        )),
    };
    if !log.status.success() {
        fail(&format!("`tools/build/archive capi` failed: {}", String::from_utf8_lossy(&log.stderr)));
    }
}

/// The folders of every crate that hold what is built and proved; `rt` keeps its own work in out/ beside them.
fn sources(crates: &Path) -> io::Result<Vec<PathBuf>> {
    let mut found = Vec::new();
    for entry in fs::read_dir(crates)? {
        let folder = entry?.path();
        found.extend(["src", "specs", "proofs"].map(|part| folder.join(part)).into_iter().filter(|path| path.is_dir()));
    }
    Ok(found)
}

/// Whether a file or folder, or one in it, changed after `time`; a folder changes when a file in it is added or removed.
fn newer(path: &Path, time: SystemTime) -> io::Result<bool> {
    let data = fs::metadata(path)?;
    if data.modified()? > time {
        return Ok(true);
    }
    if data.is_dir() {
        for entry in fs::read_dir(path)? {
            if newer(&entry?.path(), time)? {
                return Ok(true);
            }
        }
    }
    Ok(false)
}

/// The path that WENDUULIG_LIB names, or this repository's own library, brought up to date.
fn library() -> PathBuf {
    if let Some(path) = env::var_os("WENDUULIG_LIB") {
        return PathBuf::from(path);
    }
    let here = PathBuf::from(env::var_os("CARGO_MANIFEST_DIR").expect("cargo sets CARGO_MANIFEST_DIR"));
    let repository = here.join("../..");
    let path = repository.join("target/staticlib/libcapi.a");
    let built = fs::metadata(&path).and_then(|data| data.modified());
    let mut parts = sources(&repository.join("crates")).unwrap_or_default();
    parts.push(repository.join("crates.txt"));
    for part in &parts {
        println!("cargo:rerun-if-changed={}", part.display());
    }
    let old = |time| parts.iter().any(|part| newer(part, time).unwrap_or(true));
    if built.map_or(true, old) {
        build(&repository);
    }
    path
}

fn main() {
    expect_target();
    let path = library();
    if !path.is_file() || path.file_name().map_or(true, |n| n != "libcapi.a") {
        fail(&format!("there is no libcapi.a at {}", path.display()));
    }
    // The linker runs in another folder, so the path must not be a relative one.
    let folder = path.parent().filter(|f| *f != Path::new("")).unwrap_or(Path::new("."));
    let folder = folder.canonicalize().unwrap_or_else(|e| fail(&format!("{}: {e}", folder.display())));
    println!("cargo:rustc-link-search=native={}", folder.display());
    println!("cargo:rustc-link-lib=static=capi");
    println!("cargo:rerun-if-changed={}", folder.join("libcapi.a").display());
    println!("cargo:rerun-if-changed=build.rs");
    println!("cargo:rerun-if-env-changed=WENDUULIG_LIB");
}
