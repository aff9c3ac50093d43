//! Says to the linker where the library is. `README.md` has the order in which it is looked for.

use std::env;
use std::path::Path;
use std::process::Command;

/// The library in this folder: one file, or the two archives that the build leaves.
fn link_in(folder: &Path) -> bool {
    let has = |name: &str| folder.join(name).exists();
    let libraries: &[&str] = if has("libwozgirt.a") {
        &["static=wozgirt"]
    } else if has("libwozgirt.so") {
        &["dylib=wozgirt"]
    } else if has("libwozgirt_c.a") && has("liblibc_c.a") {
        &["static=wozgirt_c", "static=libc_c"]
    } else {
        return false;
    };
    println!("cargo:rustc-link-search=native={}", folder.display());
    println!("cargo:rerun-if-changed={}", folder.display());
    for library in libraries {
        println!("cargo:rustc-link-lib={library}");
    }
    true
}

/// The library that `pkg-config` knows.
fn link_by_package() -> bool {
    let program = env::var_os("PKG_CONFIG").unwrap_or_else(|| "pkg-config".into());
    let Ok(found) = Command::new(program).args(["--libs", "wozgirt"]).output() else {
        return false;
    };
    let (true, Ok(words)) = (found.status.success(), String::from_utf8(found.stdout)) else {
        return false;
    };
    for word in words.split_whitespace() {
        if let Some(folder) = word.strip_prefix("-L") {
            println!("cargo:rustc-link-search=native={folder}");
        } else if let Some(library) = word.strip_prefix("-l") {
            println!("cargo:rustc-link-lib={library}");
        }
    }
    true
}

fn main() {
    println!("cargo:rerun-if-env-changed=WOZGIRT_LIBRARIES");
    println!("cargo:rerun-if-env-changed=PKG_CONFIG");
    println!("cargo:rerun-if-env-changed=PKG_CONFIG_PATH");
    let found = match env::var_os("WOZGIRT_LIBRARIES") {
        Some(folder) => link_in(Path::new(&folder)),
        None => link_by_package(),
    };
    if !found {
        println!("cargo:warning=libwozgirt was not found: WOZGIRT_LIBRARIES names no folder that has it, and pkg-config has no wozgirt");
        println!("cargo:rustc-link-lib=dylib=wozgirt");
    }
}
