//! A build for a machine that the library was not made for is refused, and says why.

use std::process::Command;

/// What cargo prints on building the package for `target`, which must fail. No library of that target is
/// needed: the build script runs on this machine, and first.
fn refusal_for(target: &str) -> String {
    let output = Command::new(env!("CARGO"))
        .args(["check", "--offline", "--locked", "--target", target])
        .args([
            "--manifest-path",
            concat!(env!("CARGO_MANIFEST_DIR"), "/Cargo.toml"),
        ])
        .args(["--target-dir", env!("CARGO_TARGET_TMPDIR")])
        .output()
        .expect("cargo runs");
    assert!(
        !output.status.success(),
        "a build for {target} went through"
    );
    String::from_utf8_lossy(&output.stderr).into_owned()
}

#[test]
fn other_machines_are_refused_by_name() {
    for (target, named) in [
        ("aarch64-unknown-linux-gnu", "aarch64 linux"),
        ("x86_64-pc-windows-gnu", "x86_64 windows"),
    ] {
        let said = refusal_for(target);
        assert!(said.contains("machine code for x86_64 Linux"), "{said}");
        assert!(
            said.contains(&format!("cannot be linked for {named}")),
            "{said}"
        );
    }
}
