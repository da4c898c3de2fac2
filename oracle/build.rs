//! Tells the build which calls of the library under comparison to link: the
//! variable SWEEP_LIB names the folder of libsweep.a, SWEEP_CALLS the calls
//! in it (a comma list; when it is not set or empty, all that a library can
//! have).

use std::env;

#[path = "src/names.rs"]
mod names;
use names::{CALL_NAMES, ORACLE_ALONE};

fn main() {
    println!("cargo:rerun-if-changed=build.rs");
    println!("cargo:rerun-if-changed=src/names.rs");
    println!("cargo:rerun-if-env-changed=SWEEP_LIB");
    println!("cargo:rerun-if-env-changed=SWEEP_CALLS");
    println!("cargo:rustc-check-cfg=cfg(have_sweep)");
    for call in CALL_NAMES {
        println!("cargo:rustc-check-cfg=cfg({})", export_name(call));
    }
    let Ok(folder) = env::var("SWEEP_LIB") else { return };
    if folder.is_empty() {
        return;
    }
    println!("cargo:rerun-if-changed={folder}/libsweep.a");
    println!("cargo:rustc-link-search=native={folder}");
    println!("cargo:rustc-link-lib=static=sweep");
    println!("cargo:rustc-cfg=have_sweep");
    for call in wanted_calls() {
        println!("cargo:rustc-cfg={}", export_name(&call));
    }
}

/// The name of a call's function in the library.
fn export_name(call: &str) -> String {
    format!("sweep_{}", call.replace('-', "_"))
}

fn wanted_calls() -> Vec<String> {
    let list = env::var("SWEEP_CALLS").unwrap_or_default();
    if list.trim().is_empty() {
        let calls = CALL_NAMES.iter().filter(|call| !ORACLE_ALONE.contains(call));
        return calls.map(|call| call.to_string()).collect();
    }
    // check_blocks is taken for check-blocks, write_narrow for write-narrow.
    let calls: Vec<String> = list.split(',').map(|call| call.trim().replace('_', "-")).collect();
    for call in &calls {
        assert!(CALL_NAMES.contains(&call.as_str()), "SWEEP_CALLS: unknown call '{call}'");
        assert!(
            !ORACLE_ALONE.contains(&call.as_str()),
            "SWEEP_CALLS: '{call}' has no function, the oracle does it alone"
        );
    }
    calls
}
