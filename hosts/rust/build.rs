//! Finds the library that `tools/build-library` made. It is linked statically, so that programs need no path
//! at run time. The script looks in `lib` under `PAFJIRN_PREFIX`. Without that variable it looks in `lib`
//! under `.rt/prefix` of this repository, and then in the folder that pkg-config names for `pafjirn`.
use std::path::{Path, PathBuf};
use std::process::{Command, ExitCode};
use std::{env, iter};

/// The folders in which the library may be.
fn folders() -> Vec<PathBuf> {
    if let Some(prefix) = env::var_os("PAFJIRN_PREFIX") {
        return vec![Path::new(&prefix).join("lib")];
    }
    let own = Path::new(env!("CARGO_MANIFEST_DIR")).join("../../.rt/prefix/lib");
    iter::once(own).chain(by_pkg_config()).collect()
}

/// The folder that pkg-config names.
fn by_pkg_config() -> Option<PathBuf> {
    let words = ["--variable=libdir", "pafjirn"];
    let said = Command::new("pkg-config").args(words).output().ok()?;
    let folder = String::from_utf8(said.stdout).ok()?;
    said.status.success().then(|| folder.trim().into())
}

fn main() -> ExitCode {
    println!("cargo:rerun-if-env-changed=PAFJIRN_PREFIX");
    println!("cargo:rerun-if-env-changed=PKG_CONFIG_PATH");
    let is_in = |folder: &PathBuf| folder.join("libpafjirn.a").is_file();
    let folder = if let Some(folder) = folders().into_iter().find(is_in) {
        folder
    } else {
        eprintln!("no libpafjirn.a: run tools/build-library, or set PAFJIRN_PREFIX to its prefix");
        return ExitCode::FAILURE;
    };
    let folder = folder.display();
    println!("cargo:rerun-if-changed={folder}/libpafjirn.a");
    println!("cargo:rustc-link-search=native={folder}");
    println!("cargo:rustc-link-lib=static=pafjirn");
    ExitCode::SUCCESS
}
