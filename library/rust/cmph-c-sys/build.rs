//! Finds the C library: in the folder that `CMPH_C_LIB_DIR` names, else where `pkg-config` says, else where the linker looks.
use std::env;
use std::path::Path;
use std::process::Command;

fn main() {
    println!("cargo:rerun-if-changed=build.rs");
    println!("cargo:rerun-if-env-changed=CMPH_C_LIB_DIR");
    println!("cargo:rerun-if-env-changed=PKG_CONFIG_PATH");
    if let Some(folder) = env::var_os("CMPH_C_LIB_DIR") {
        link_archive(Path::new(&folder));
    } else if let Some(flags) = flags_of_pkg_config() {
        link_by_flags(&flags);
    } else {
        println!("cargo:rustc-link-lib=cmph_c");
    }
}

/// Links the archive of a folder into the crate.
fn link_archive(folder: &Path) {
    let archive = folder.join("libcmph_c.a");
    if !archive.is_file() {
        panic!(
            "CMPH_C_LIB_DIR: there is no file {} (a path has to be absolute)",
            archive.display()
        );
    }
    println!("cargo:rerun-if-changed={}", archive.display());
    println!("cargo:rustc-link-search=native={}", folder.display());
    println!("cargo:rustc-link-lib=static=cmph_c");
}

/// What `pkg-config --libs cmph_c` prints, or none if there is no such command, or it does not know the library.
fn flags_of_pkg_config() -> Option<String> {
    let ran = Command::new("pkg-config")
        .args(["--libs", "cmph_c"])
        .output()
        .ok()?;
    if ran.status.success() {
        String::from_utf8(ran.stdout).ok()
    } else {
        None
    }
}

/// Passes the folders and libraries of a linker's command line to cargo. The file `cmph_c.pc` has nothing else.
fn link_by_flags(flags: &str) {
    for flag in flags.split_whitespace() {
        if let Some(folder) = flag.strip_prefix("-L") {
            println!("cargo:rustc-link-search=native={folder}");
        } else if let Some(library) = flag.strip_prefix("-l") {
            println!("cargo:rustc-link-lib={library}");
        }
    }
}
