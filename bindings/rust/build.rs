//! Links the C library: the first of these that applies.
//!
//! - On docs.rs, which sets `DOCS_RS`, nothing is linked.
//! - `IP_WIRE_SHARED=1` links the installed shared library.
//! - The static library in the folder `bundled` of this package is linked if it is there.
//! - The installed static library is linked.
//!
//! The program `pkg-config` finds what is installed. `PKG_CONFIG` names another program, and `PKG_CONFIG_PATH` another
//! folder of `ip_wire.pc`.

use std::env;
use std::path::Path;
use std::process::{exit, Command};

const VARIABLES: [&str; 5] =
    ["DOCS_RS", "IP_WIRE_SHARED", "PKG_CONFIG", "PKG_CONFIG_PATH", "PKG_CONFIG_LIBDIR"];

fn fail(message: &str) -> ! {
    eprintln!("ip_wire_c: {message}");
    exit(1)
}

/// What `pkg-config` prints.
fn pkg_config(arguments: &[&str]) -> String {
    let program = env::var("PKG_CONFIG").unwrap_or_else(|_| "pkg-config".to_owned());
    let output = Command::new(&program)
        .args(arguments)
        .output()
        .unwrap_or_else(|error| fail(&format!("cannot run {program}: {error}")));
    if !output.status.success() {
        let message = String::from_utf8_lossy(&output.stderr);
        fail(&format!(
            "{program} does not find the C library ip_wire 0.5 (make install installs it). If it is not in a \
             folder of the system, name the folder of ip_wire.pc, as PKG_CONFIG_PATH=/usr/local/lib/pkgconfig.\n{message}"
        ));
    }
    let text = String::from_utf8(output.stdout);
    text.unwrap_or_else(|_| fail("a path is not UTF-8")).trim_end().to_owned()
}

/// The folders of the installed library and of its header.
fn installed() -> (String, String) {
    pkg_config(&["--print-errors", "--exists", "ip_wire >= 0.5.0 ip_wire < 0.6.0"]);
    (pkg_config(&["--variable=libdir", "ip_wire"]), pkg_config(&["--variable=includedir", "ip_wire"]))
}

fn main() {
    for name in VARIABLES {
        println!("cargo:rerun-if-env-changed={name}");
    }
    if env::var_os("DOCS_RS").is_some() {
        return;
    }
    let bundled = env::var("CARGO_MANIFEST_DIR").unwrap_or_else(|_| fail("a path is not UTF-8")) + "/bundled";
    let is_shared = env::var("IP_WIRE_SHARED").is_ok_and(|value| value == "1");
    let is_bundled = !is_shared && Path::new(&bundled).join("libip_wire.a").exists();
    let (folder, include) = if is_bundled { (bundled.clone(), bundled) } else { installed() };
    let (kind, file) = if is_shared { ("dylib", "so") } else { ("static", "a") };
    println!("cargo:rustc-link-search=native={folder}");
    println!("cargo:rustc-link-lib={kind}=ip_wire");
    println!("cargo:rerun-if-changed={folder}/libip_wire.{file}");
    // For the tests: the header and the worked frames, which are in a packed crate or in the tree of the library.
    println!("cargo:rustc-env=IP_WIRE_INCLUDE={include}");
    let frames = ["tests/worked/worked_frames.inc", "../../tests/judge/worked_frames.inc"];
    if let Some(found) = frames.iter().find_map(|path| Path::new(path).canonicalize().ok()) {
        println!("cargo:rustc-env=IP_WIRE_FRAMES={}", found.display());
    }
}
