//! Lays the published Rust sources, patched, and the shims out as one module tree below OUT_DIR, and links the proved library.
use std::path::{Path, PathBuf};
use std::process::Command;
use std::{env, fs};

/// The published Rust's folder src.
fn sources() -> PathBuf {
    println!("cargo:rerun-if-env-changed=MONKEY_SRC");
    let folder =
        env::var("MONKEY_SRC").expect("MONKEY_SRC: the folder src of ktanaka101/monkey.rs at commit 34f87fde49");
    PathBuf::from(folder)
}

/// The folder of libcapi.a: that of `tools/staticlib`, or another.
fn library() -> PathBuf {
    println!("cargo:rerun-if-env-changed=CAPI_DIR");
    let folder = env::var("CAPI_DIR").unwrap_or("../target/staticlib".into());
    fs::canonicalize(folder).expect("libcapi.a's folder: run `tools/staticlib`")
}

fn files_below(folder: &Path, found: &mut Vec<PathBuf>) {
    for entry in fs::read_dir(folder).unwrap() {
        let path = entry.unwrap().path();
        if path.is_dir() {
            files_below(&path, found)
        } else {
            found.push(path)
        }
    }
}

fn copy(from: &Path, to: &Path) {
    assert!(!to.exists(), "{} would replace a published file", from.display());
    fs::create_dir_all(to.parent().unwrap()).unwrap();
    fs::copy(from, to).unwrap();
}

/// The published files, each with the checksum that sources.sha256 names; nothing else of the folder is taken.
fn take_sources(source: &Path, root: &Path) {
    let list = fs::canonicalize("sources.sha256").unwrap();
    let sums = fs::read_to_string(&list).unwrap();
    for line in sums.lines() {
        let name = line.split_once("  ").unwrap().1;
        println!("cargo:rerun-if-changed={}", source.join(name).display());
        copy(&source.join(name), &root.join(name));
    }
    let mut check = Command::new("sha256sum");
    let status = check.args(["--check", "--quiet"]).arg(&list).current_dir(root).status().unwrap();
    assert!(status.success(), "the sources are not those of sources.sha256");
}

/// The patches of this folder, in the order of their names, onto the verified files: where the port no longer follows the Rust.
fn apply_patches(folder: &Path, root: &Path) {
    println!("cargo:rerun-if-changed={}", folder.display());
    let mut patches = Vec::new();
    files_below(folder, &mut patches);
    patches.retain(|path| path.extension().is_some_and(|end| end == "patch"));
    patches.sort();
    for patch in patches {
        let input = fs::File::open(&patch).unwrap();
        let mut apply = Command::new("patch");
        let status = apply.args(["--strip=1", "--fuzz=0", "--quiet"]).stdin(input).current_dir(root).status().unwrap();
        assert!(status.success(), "{} does not apply", patch.display());
    }
}

fn main() {
    let (source, library) = (sources(), library());
    let root = Path::new(&env::var("OUT_DIR").unwrap()).join("monkey");
    let _ = fs::remove_dir_all(&root);
    take_sources(&source, &root);
    apply_patches(Path::new("patches"), &root);
    let mut shims = Vec::new();
    files_below(Path::new("shims"), &mut shims);
    for shim in shims {
        copy(&shim, &root.join(shim.strip_prefix("shims").unwrap()));
    }
    println!("cargo:rerun-if-changed=shims");
    println!("cargo:rerun-if-changed=sources.sha256");
    println!("cargo:rerun-if-changed={}", library.join("libcapi.a").display());
    println!("cargo:rustc-link-search=native={}", library.display());
    println!("cargo:rustc-link-lib=static=capi");
}
