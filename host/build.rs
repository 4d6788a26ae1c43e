//! Links the proved library, which `tools/build.sh aria_c` writes at the repository's top, and tells the
//! bench whether its own, which `tools/build.sh benchlib` writes, is there too. A build for another
//! machine than the library's ends here, with the reason.

use std::env;
use std::path::PathBuf;
use std::process;

fn main() {
    println!("cargo:rerun-if-changed=build.rs");
    let (arch, os) = (of_target("ARCH"), of_target("OS"));
    if arch != "x86_64" || os != "linux" {
        eprintln!("libaria.a is machine code for x86_64 Linux.");
        eprintln!("It cannot be linked for {arch} {os}.");
        process::exit(1);
    }

    let package = PathBuf::from(env::var_os("CARGO_MANIFEST_DIR").expect("cargo sets it"));
    let top = package
        .parent()
        .expect("the package is a folder of the repository");
    let folder = top.join("target/staticlib");
    let library = folder.join("libaria.a");

    println!("cargo:rerun-if-changed={}", folder.display());
    if !library.exists() {
        eprintln!("{} is missing.", library.display());
        eprintln!("Run `tools/build.sh aria_c` in {} first.", top.display());
        process::exit(1);
    }
    println!("cargo:rustc-link-search=native={}", folder.display());
    println!("cargo:rustc-link-lib=static=aria");

    let bench = folder.join("libbenchlib.a");
    if bench.exists() {
        println!("cargo:rustc-env=ARIA_BENCHLIB={}", bench.display());
    }
}

/// What cargo says of the machine that it builds for.
fn of_target(what: &str) -> String {
    env::var(format!("CARGO_CFG_TARGET_{what}")).expect("cargo sets it")
}
