// SPDX-License-Identifier: MIT OR Apache-2.0
//! Finds libntwin.a: below NTWIN_DIR, else by pkg-config, else in c/out of the repository that this crate belongs to.
use std::{env, path::Path, path::PathBuf, process::Command};

fn by_environment() -> Option<PathBuf> {
    println!("cargo:rerun-if-env-changed=NTWIN_DIR");
    Some(Path::new(&env::var_os("NTWIN_DIR")?).join("lib"))
}

fn by_pkg_config() -> Option<PathBuf> {
    let said = Command::new("pkg-config").args(["--variable=libdir", "ntwin"]).output().ok()?;
    let folder = String::from_utf8(said.stdout).ok()?;
    (said.status.success() && !folder.trim().is_empty()).then(|| PathBuf::from(folder.trim()))
}

fn in_the_repository() -> Option<PathBuf> {
    let folder = Path::new(env!("CARGO_MANIFEST_DIR")).join("../../c/out");
    folder.join("libntwin.a").is_file().then_some(folder)
}

fn main() {
    let folder = by_environment().or_else(by_pkg_config).or_else(in_the_repository);
    let Some(folder) = folder else {
        panic!("libntwin.a was not found: set NTWIN_DIR to where it was installed, or make it with `make -C c`");
    };
    println!("cargo:rerun-if-changed={}", folder.join("libntwin.a").display());
    println!("cargo:rustc-link-search=native={}", folder.display());
    println!("cargo:rustc-link-lib=static=ntwin");
}
