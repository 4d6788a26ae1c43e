//! The header, the pkg-config file and this package bear one version.

const HEADER: &str = include_str!("../../include/aria.h");
const PKG_CONFIG: &str = include_str!("../../include/aria.pc");

/// What stands after `start` on the one line of `text` that begins with it.
fn after<'a>(text: &'a str, start: &str) -> &'a str {
    let mut found = text.lines().filter_map(|line| line.strip_prefix(start));
    let value = found.next().unwrap_or_else(|| panic!("no line {start}.."));
    assert_eq!(found.next(), None, "two lines {start}..");
    value
}

#[test]
fn header_and_pkg_config_file_have_the_package_s_version() {
    let version = env!("CARGO_PKG_VERSION");
    assert_eq!(
        after(HEADER, "#define ARIA_VERSION "),
        format!("\"{version}\"")
    );
    let parts = ["MAJOR", "MINOR", "PATCH"]
        .map(|part| after(HEADER, &format!("#define ARIA_VERSION_{part} ")));
    assert_eq!(parts.join("."), version);
    assert_eq!(after(PKG_CONFIG, "Version: "), version);
}
