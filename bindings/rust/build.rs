//! Says where the library is: in the folder that DSPEC_LIB_DIR names, as `make lib` leaves it in `build/lib`, else where pkg-config has it.

use std::env;
use std::fs;
use std::process::{exit, Command};

fn main() {
    println!("cargo:rerun-if-changed=build.rs");
    println!("cargo:rerun-if-env-changed=DSPEC_LIB_DIR");
    println!("cargo:rerun-if-env-changed=PKG_CONFIG_PATH");
    if let Ok(named) = env::var("DSPEC_LIB_DIR") {
        let Ok(folder) = fs::canonicalize(&named) else {
            fail(&format!("DSPEC_LIB_DIR names a folder that isn't there: {named}"));
        };
        if !folder.join("libdspec.a").exists() {
            fail(&format!("there is no libdspec.a in the folder that DSPEC_LIB_DIR names: {named}"));
        }
        let folder = folder.display();
        println!("cargo:rerun-if-changed={folder}/libdspec.a");
        println!("cargo:rustc-link-search=native={folder}");
        println!("cargo:rustc-link-lib=static=dspec");
    } else if let Some(words) = flags_of_pkg_config() {
        for word in words.split_whitespace() {
            if let Some(folder) = word.strip_prefix("-L") {
                println!("cargo:rustc-link-search=native={folder}");
            } else if let Some(name) = word.strip_prefix("-l") {
                println!("cargo:rustc-link-lib={name}");
            }
        }
    } else {
        fail("neither DSPEC_LIB_DIR nor pkg-config says where libdspec is: `make lib` leaves it in build/lib");
    }
}

fn fail(why: &str) -> ! {
    eprintln!("dspec: {why}");
    exit(1)
}

fn flags_of_pkg_config() -> Option<String> {
    let program = env::var("PKG_CONFIG").unwrap_or_else(|_| "pkg-config".to_owned());
    let told = Command::new(program).args(["--libs", "dspec"]).output().ok()?;
    if told.status.success() {
        String::from_utf8(told.stdout).ok()
    } else {
        None
    }
}
