//! Where the library is: the folder WELTIYO_LIBRARY_DIR, or what pkg-config knows. Its archive is taken where there is one, so that what is
//! built needs nothing else where it runs.
use std::env;
use std::path::Path;
use std::process::Command;

fn folder() -> String {
    if let Ok(named) = env::var("WELTIYO_LIBRARY_DIR") {
        return named;
    }
    let asked = Command::new("pkg-config").args(["--variable=libdir", "weltiyo"]).output();
    match asked {
        // (pkgconf writes a space of a path with a backslash in front)
        Ok(said) if said.status.success() => String::from_utf8_lossy(&said.stdout).trim().replace("\\ ", " "),
        _ => panic!("libweltiyo isn't found: set WELTIYO_LIBRARY_DIR to its folder, or PKG_CONFIG_PATH to that of weltiyo.pc"),
    }
}

fn main() {
    let folder = folder();
    let kind = if Path::new(&folder).join("libweltiyo.a").exists() { "static" } else { "dylib" };
    println!("cargo:rerun-if-env-changed=WELTIYO_LIBRARY_DIR");
    println!("cargo:rerun-if-env-changed=PKG_CONFIG_PATH");
    println!("cargo:rerun-if-changed={folder}");
    println!("cargo:rustc-link-search=native={folder}");
    println!("cargo:rustc-link-lib={kind}=weltiyo");
}
