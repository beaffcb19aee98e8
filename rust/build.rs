//! Says what the compiler knows that earlier ones refuse, or warn of. `range_sets_heap` is set for the library for C alone, by its
//! Makefile.

use std::env;
use std::process::Command;

/// `#[diagnostic::on_unimplemented]`, `#[diagnostic::do_not_recommend]` and `select_unpredictable`, each with the first
/// Rust 1 that has it.
const SINCE: [(&str, u32); 3] = [
    ("range_sets_messages", 78),
    ("range_sets_hides_impls", 85),
    ("range_sets_select", 88),
];

fn main() {
    println!("cargo:rerun-if-changed=build.rs");
    let version = minor_version().unwrap_or(0);
    for (name, since) in SINCE {
        if version >= since {
            println!("cargo:rustc-cfg={name}");
        }
        declare(name, version);
    }
    declare("range_sets_heap", version);
}

/// Since Rust 1.80 each name has to be declared. Earlier ones warn of that.
fn declare(name: &str, version: u32) {
    if version >= 80 {
        println!("cargo:rustc-check-cfg=cfg({name})");
    }
}

/// The 78 of `rustc 1.78.0`.
fn minor_version() -> Option<u32> {
    let said = Command::new(env::var_os("RUSTC")?)
        .arg("--version")
        .output()
        .ok()?;
    String::from_utf8(said.stdout)
        .ok()?
        .split('.')
        .nth(1)?
        .parse()
        .ok()
}
