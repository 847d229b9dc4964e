//! Links the two proved static libraries: the driver service, and what can be told of a frame alone. They are looked for in the folder
//! that WIDOSHA_LIB_DIR names by its full path, else in ../target/staticlib, where `tools/staticlib.sh` puts them. Where that cannot
//! come to a program, one sentence says why. (A script that fails says it on standard error: `cargo::error` needs a later cargo than
//! this crate does.)
use std::env;
use std::path::{Path, PathBuf};
use std::process::ExitCode;

const LIBRARIES: [&str; 2] = ["driver_c", "frame_c"];

/// Systems of x86-64 whose linkers take no ELF objects.
const NO_ELF: [&str; 2] = ["windows", "macos"];

/// What keeps the libraries from being linked.
fn obstacle(architecture: &str, system: &str, folder: &Path) -> Option<String> {
    if architecture != "x86_64" || NO_ELF.contains(&system) {
        return Some(format!(
            "the proved libraries are for x86-64 Linux, and this build is for {architecture} {system} (host/README.md, \"Supported targets\")"
        ));
    }
    let archives = LIBRARIES.map(|library| folder.join(format!("lib{library}.a")));
    let missing = archives.iter().find(|archive| !archive.is_file())?;
    Some(format!(
        "there is no {} yet, which `tools/staticlib.sh driver_c frame_c` builds, or WIDOSHA_LIB_DIR names another folder",
        missing.display()
    ))
}

fn main() -> ExitCode {
    let manifest = PathBuf::from(env::var_os("CARGO_MANIFEST_DIR").expect("cargo sets CARGO_MANIFEST_DIR"));
    let architecture = env::var("CARGO_CFG_TARGET_ARCH").expect("cargo sets CARGO_CFG_TARGET_ARCH");
    let system = env::var("CARGO_CFG_TARGET_OS").expect("cargo sets CARGO_CFG_TARGET_OS");
    let folder = match env::var_os("WIDOSHA_LIB_DIR") {
        Some(named) => PathBuf::from(named),
        None => manifest.with_file_name("target").join("staticlib"),
    };
    println!("cargo:rerun-if-changed=build.rs");
    println!("cargo:rerun-if-env-changed=WIDOSHA_LIB_DIR");
    for library in LIBRARIES {
        println!("cargo:rerun-if-changed={}", folder.join(format!("lib{library}.a")).display());
    }
    if let Some(obstacle) = obstacle(&architecture, &system, &folder) {
        eprintln!("widosha cannot be built: {obstacle}");
        return ExitCode::FAILURE;
    }
    println!("cargo:rustc-link-search=native={}", folder.display());
    for library in LIBRARIES {
        println!("cargo:rustc-link-lib=static={library}");
    }
    ExitCode::SUCCESS
}
