//! Links the archive of the proved functions, the C loops at -O2 and, if one is named, the archive of an earlier
//! revision.

use std::{env, path::Path, process::Command};

fn must(command: &mut Command) {
    let status = command.status().unwrap_or_else(|e| panic!("{command:?}: {e}"));
    assert!(status.success(), "{command:?}: {status}");
}

fn link(folder: &str, name: &str) {
    println!("cargo:rustc-link-search=native={folder}");
    println!("cargo:rustc-link-lib=static={name}");
}

/// An archive that is made outside.
fn link_made(folder: &str, name: &str) {
    println!("cargo:rerun-if-changed={folder}/lib{name}.a");
    link(folder, name);
}

fn main() {
    println!("cargo:rerun-if-changed=src/loops.c");
    println!("cargo:rerun-if-env-changed=PROVED");
    println!("cargo:rerun-if-env-changed=PROVED_EARLIER");
    println!("cargo:rustc-check-cfg=cfg(earlier)");
    let out = env::var("OUT_DIR").expect("cargo sets OUT_DIR");
    let object = Path::new(&out).join("loops.o");
    must(
        Command::new("cc")
            .args(["-O2", "-Wall", "-Wextra", "-Werror", "-c", "src/loops.c", "-o"])
            .arg(&object),
    );
    must(Command::new("ar").arg("crs").arg(Path::new(&out).join("libloops.a")).arg(&object));
    link(&out, "loops");
    link_made(&env::var("PROVED").expect("PROVED: the folder of libproved.a"), "proved");
    if let Ok(earlier) = env::var("PROVED_EARLIER") {
        println!("cargo:rustc-cfg=earlier");
        link_made(&earlier, "earlier");
    }
    println!("cargo:rustc-link-arg-bin=copies=-Wl,--wrap=memset");
}
