//! Says where the library is: in `MEZULOBU_LIB_DIR`, else where pkg-config finds it. With
//! `MEZULOBU_STATIC` the archive is linked, and else the shared object.
use std::env;
use std::process::Command;

fn told_by_pkg_config() -> Option<String> {
    let told = Command::new("pkg-config")
        .args(["--variable=libdir", "mezulobu"])
        .output()
        .ok()?;
    let folder = String::from_utf8(told.stdout).ok()?;
    told.status.success().then(|| folder.trim().to_owned())
}

fn main() {
    for name in ["MEZULOBU_LIB_DIR", "MEZULOBU_STATIC", "PKG_CONFIG_PATH"] {
        println!("cargo:rerun-if-env-changed={name}");
    }
    let folder = env::var("MEZULOBU_LIB_DIR")
        .ok()
        .or_else(told_by_pkg_config);
    let folder =
        folder.expect("libmezulobu is neither in MEZULOBU_LIB_DIR nor known to pkg-config");
    let kind = env::var("MEZULOBU_STATIC").map_or("dylib", |_| "static");
    println!("cargo:rustc-link-search=native={folder}");
    println!("cargo:rustc-link-lib={kind}=mezulobu");
    println!("cargo:rerun-if-changed={folder}");
}
