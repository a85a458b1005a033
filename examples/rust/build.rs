//! Asks pkg-config where the library and its header are.

// What serves the tests alone is not called here.
#[allow(dead_code)]
mod header;

use std::path::Path;
use std::process::Command;

/// What pkg-config says of the library.
fn asked(what: &str) -> String {
    let output = Command::new("pkg-config").args([what, "utvpi"]).output();
    let output = output.expect("pkg-config can't be run: install it");
    assert!(
        output.status.success(),
        "pkg-config does not know utvpi: install it, or name its folder by PKG_CONFIG_PATH"
    );
    String::from_utf8(output.stdout).unwrap().trim().to_string()
}

fn main() {
    println!("cargo:rerun-if-env-changed=PKG_CONFIG_PATH");
    println!(
        "cargo:rustc-link-search=native={}",
        asked("--variable=libdir")
    );
    println!("cargo:rustc-link-lib=static=utvpi");
    let header = Path::new(&asked("--variable=includedir")).join("utvpi.h");
    header::write_limits_of(&header, &["LINE_NUMBERS", "NO", "REFUSAL_UNIT"]);
}
