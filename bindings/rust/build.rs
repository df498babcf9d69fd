//! Links the archive that `rt lib` made in crates/pgwal_c, and the kit's two archives of the C library's calls.

use std::{env, path::Path, process::Command};

fn main() {
    let top = Path::new(&env::var("CARGO_MANIFEST_DIR").unwrap()).join("../..");
    let archive = env::var("PGWAL_LIB").map_or_else(|_| top.join("crates/pgwal_c/out"), Into::into);
    let kit = env::var("PGWAL_KIT").unwrap_or_else(|_| {
        let page = Command::new("rt").arg("doc").output().expect("rt, or PGWAL_KIT").stdout;
        let page = String::from_utf8(page).unwrap();
        Path::new(page.trim()).parent().unwrap().display().to_string()
    });
    println!("cargo:rustc-link-search=native={}", archive.display());
    println!("cargo:rustc-link-search=native={kit}/c");
    println!("cargo:rustc-link-lib=static=pgwal_c");
    println!("cargo:rustc-link-lib=static=os_c");
    println!("cargo:rustc-link-lib=static=libc_c");
    println!("cargo:rerun-if-env-changed=PGWAL_LIB");
    println!("cargo:rerun-if-changed={}", archive.join("libpgwal_c.a").display());
}
