//! Finds `libmorris.a`, or else `libmorris.so`: in the folder that the environment variable
//! `MORRIS_LIB_DIR` names; where a clone or a release of Morris has it beside this crate; or in the
//! folder that `pkg-config` knows. Where docs.rs makes the pages there is none, and none is needed.

use std::env;
use std::path::{Path, PathBuf};
use std::process::{exit, Command};

const NAMED: &str = "MORRIS_LIB_DIR";

fn has_library(folder: &Path) -> bool {
    folder.join("libmorris.a").is_file() || folder.join("libmorris.so").is_file()
}

/// The folders that a clone (`out`) and a release (`lib`) have beside this crate. `cargo package`
/// tries what it packed in `target/package/NAME` of the crate.
fn beside() -> Option<PathBuf> {
    let here = PathBuf::from(env::var_os("CARGO_MANIFEST_DIR")?);
    let is_packed = here.parent().map_or(false, |it| it.ends_with("target/package"));
    let above = here.join(if is_packed { "../../../.." } else { ".." });
    ["out", "lib"].map(|it| above.join(it)).into_iter().find(|it| has_library(it))
}

fn by_pkg_config() -> Option<PathBuf> {
    let arguments = ["--variable=libdir", "morris"];
    let said = Command::new("pkg-config").args(arguments).output().ok()?;
    let folder = PathBuf::from(String::from_utf8(said.stdout).ok()?.trim());
    (said.status.success() && has_library(&folder)).then_some(folder)
}

fn find() -> Result<PathBuf, String> {
    if let Some(named) = env::var_os(NAMED).filter(|it| !it.is_empty()) {
        let folder = PathBuf::from(named);
        return if has_library(&folder) {
            Ok(folder)
        } else {
            Err(format!("{NAMED} names {}, which has no libmorris.a", folder.display()))
        };
    }
    beside().or_else(by_pkg_config).ok_or_else(|| {
        format!(
            "libmorris.a isn't found. `make -C embed` in a clone of Morris makes it in embed/out, \
             a release has it in lib; {NAMED} names its folder, and `make -C embed install` tells \
             pkg-config of it"
        )
    })
}

fn main() {
    println!("cargo:rerun-if-env-changed={NAMED}");
    println!("cargo:rerun-if-env-changed=PKG_CONFIG_PATH");
    if env::var_os("DOCS_RS").is_some() {
        return;
    }
    let folder = find().unwrap_or_else(|why| {
        eprintln!("morris-tables: {why}");
        exit(1);
    });
    let is_static = folder.join("libmorris.a").is_file();
    let kind = if is_static { "static" } else { "dylib" };
    let file = folder.join(if is_static { "libmorris.a" } else { "libmorris.so" });
    println!("cargo:rerun-if-changed={}", file.display());
    println!("cargo:rustc-link-search=native={}", folder.display());
    println!("cargo:rustc-link-lib={kind}=morris");
}
