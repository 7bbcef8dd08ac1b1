//! Tells rustc where the Rust that is compared with lies, and links the archives that are compared.
//!
//! MAROONTREE_SRC names the folder of the Rust: the one that holds src/av2.
//! MIZDREK_ARCHIVES names a folder with ready archives; nothing is then proved or written.

use std::env;
use std::path::{Path, PathBuf};
use std::process::Command;

/// The Rust's files that are built as they are, with the name of the variable that leads to each.
const ORACLE: [(&str, &str); 3] =
    [("ORACLE_FDCT", "fdct.rs"), ("ORACLE_WHT", "wht.rs"), ("ORACLE_QUANT", "quant.rs")];

fn main() {
    let manifest = PathBuf::from(env::var_os("CARGO_MANIFEST_DIR").expect("cargo names the folder"));
    let root = manifest.join("..");
    println!("cargo:rerun-if-changed=build.rs");
    find_oracle(&root.join("../shared/docs/src"));
    link(&root, "probe");
    link(&root, "mizdrek");
}

fn find_oracle(usual: &Path) {
    println!("cargo:rerun-if-env-changed=MAROONTREE_SRC");
    let folder = env::var_os("MAROONTREE_SRC").map_or(usual.to_path_buf(), PathBuf::from);
    for (variable, name) in ORACLE {
        let file = folder.join("src/av2").join(name);
        let Ok(file) = file.canonicalize() else {
            stop(&format!("the Rust's {} is not there; name its folder in MAROONTREE_SRC", file.display()));
        };
        println!("cargo:rerun-if-changed={}", file.display());
        println!("cargo:rustc-env={variable}={}", file.display());
    }
}

fn link(root: &Path, name: &str) {
    println!("cargo:rerun-if-env-changed=MIZDREK_ARCHIVES");
    let folder = match env::var_os("MIZDREK_ARCHIVES") {
        Some(ready) => PathBuf::from(ready),
        None => {
            prove(root, name);
            root.join("crates").join(name).join("out")
        }
    };
    let archive = folder.join(format!("lib{name}.a"));
    if !archive.exists() {
        stop(&format!("{} is not there: `rt lib` in crates/{name} writes it", archive.display()));
    }
    println!("cargo:rerun-if-changed={}", archive.display());
    println!("cargo:rustc-link-search=native={}", folder.display());
    println!("cargo:rustc-link-lib=static={name}");
}

/// Has `rt` write the archive anew. Where there is no `rt`, the archive that is there is taken.
fn prove(root: &Path, name: &str) {
    println!("cargo:rerun-if-changed={}", root.join("crates").display());
    println!("cargo:rerun-if-changed={}", root.join("crates.txt").display());
    match Command::new("rt").arg("lib").current_dir(root.join("crates").join(name)).output() {
        Err(_) => println!("cargo:warning=rt is not on PATH: lib{name}.a is taken as it is"),
        Ok(run) if run.status.success() => {}
        Ok(run) => {
            let said = [run.stdout, run.stderr].concat();
            stop(&format!("rt lib failed in crates/{name}:\n{}", String::from_utf8_lossy(&said)));
        }
    }
}

fn stop(why: &str) -> ! {
    eprintln!("{why}");
    std::process::exit(1);
}
