//! Builds shrev from the user's copy of its sources, and links the port's static library if there is one.
//!
//! `SHREV_SRC` names the folder with shrev's `lib.rs`, `storage.rs` and `util.rs`. They are copied as they are into
//! this build's own folder under target/; one line is added after the end of `storage.rs`, which declares the
//! module of `inside.rs`. `RUNNER_LIB` names the folder with `librunner.a`.

use std::path::{Path, PathBuf};
use std::process::{exit, Command};
use std::{env, fs};

const LIBRARY: &str = "librunner.a";

fn main() {
    println!("cargo::rustc-check-cfg=cfg(port)");
    build_shrev();
    link_port();
}

/// As a crate of its own, since shrev's files name each other by `crate::`.
fn build_shrev() {
    println!("cargo::rerun-if-env-changed=SHREV_SRC");
    println!("cargo::rerun-if-changed=inside.rs");
    let Some(sources) = env::var_os("SHREV_SRC") else {
        give_up("SHREV_SRC is not set; it has to name the folder with shrev 1.1.1's lib.rs, storage.rs and util.rs");
    };
    let sources = folder_of_sources(Path::new(&sources));
    let copies = out_dir().join("shrev");
    fs::create_dir_all(copies.join("storage")).unwrap();
    for (name, added) in [("lib.rs", ""), ("storage.rs", "\nmod inside;\n"), ("util.rs", "")] {
        let path = sources.join(name);
        println!("cargo::rerun-if-changed={}", path.display());
        let text = fs::read_to_string(&path).unwrap_or_else(|e| give_up(&format!("{}: {e}", path.display())));
        fs::write(copies.join(name), text + added).unwrap();
    }
    fs::write(copies.join("storage/inside.rs"), fs::read("inside.rs").unwrap()).unwrap();
    compile(&copies.join("lib.rs"));
}

/// The folder that was named, or `src` below it.
fn folder_of_sources(named: &Path) -> PathBuf {
    let places = [named.to_path_buf(), named.join("src")];
    let found = places.iter().find(|p| p.join("storage.rs").is_file());
    found.cloned().unwrap_or_else(|| {
        give_up(&format!(
            "SHREV_SRC is {}, and neither it nor src below it has a storage.rs",
            named.display()
        ))
    })
}

fn compile(root: &Path) {
    // edition 2021: shrev has a variable named gen, which edition 2024 reserves
    let mut rustc = Command::new(env::var_os("RUSTC").unwrap());
    rustc.args([
        "--crate-name",
        "shrev",
        "--crate-type",
        "rlib",
        "--edition",
        "2021",
        "--cap-lints",
        "allow",
    ]);
    rustc.args(["--target", &env::var("TARGET").unwrap()]);
    rustc.args(["-C", &format!("opt-level={}", env::var("OPT_LEVEL").unwrap())]);
    let checks = if env::var("PROFILE").unwrap() == "debug" { "on" } else { "off" };
    rustc.args(["-C", &format!("debug-assertions={checks}")]);
    rustc.arg("--out-dir").arg(out_dir()).arg(root);
    let done = rustc.output().unwrap_or_else(|e| give_up(&format!("rustc didn't start: {e}")));
    if !done.status.success() {
        eprintln!("{}", String::from_utf8_lossy(&done.stderr));
        give_up("shrev's sources, with inside.rs added, don't compile; are they those of 1.1.1?");
    }
    println!("cargo::rustc-link-search={}", out_dir().display());
}

/// A folder that the user named must have the library. Without a name, a missing one makes room for the stand-in.
fn link_port() {
    println!("cargo::rerun-if-env-changed=RUNNER_LIB");
    let named = env::var_os("RUNNER_LIB").map(PathBuf::from);
    let here = PathBuf::from(env::var_os("CARGO_MANIFEST_DIR").unwrap());
    let folder = here.join(named.as_deref().unwrap_or(Path::new("../target/staticlib")));
    let library = folder.join(LIBRARY);
    println!("cargo::rerun-if-changed={}", library.display());
    if library.is_file() {
        let library = fs::canonicalize(library).unwrap();
        println!("cargo::rustc-cfg=port");
        println!("cargo::rustc-env=PORT_LIBRARY={}", library.display());
        println!("cargo::rustc-link-search=native={}", folder.display());
        println!("cargo::rustc-link-lib=static=runner");
        println!("cargo::warning=voice 1 is the port, {}", library.display());
    } else if named.is_some() {
        give_up(&format!(
            "RUNNER_LIB is set, and there is no {}; `bin/runner-library` makes it",
            library.display()
        ));
    } else {
        println!("cargo::warning=there is no {}; `bin/runner-library` makes it", library.display());
        println!("cargo::warning=A STAND-IN TAKES THE PORT'S PLACE: NOTHING IS COMPARED WITH THE PORT");
    }
}

fn out_dir() -> PathBuf {
    PathBuf::from(env::var_os("OUT_DIR").unwrap())
}

fn give_up(why: &str) -> ! {
    println!("cargo::error={why}");
    exit(1)
}
