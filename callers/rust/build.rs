//! Links libtak.a: from the folder that TAK_LIB names (a relative one counts from the package's folder); else from where the
//! repository builds it, or of an installed package from the lib folder beside its share folder; else from where pkg-config knows
//! the same version.

use std::env;
use std::path::{Path, PathBuf};
use std::process::Command;

const ARCHIVE: &str = "libtak.a";

/// The folder that pkg-config knows, or what it says instead.
fn known_to_pkg_config() -> Result<PathBuf, String> {
    let package = format!("tak = {}", env!("CARGO_PKG_VERSION"));
    let asked = Command::new("pkg-config")
        .args(["--print-errors", "--variable=libdir", &package])
        .output()
        .map_err(|error| error.to_string())?;
    let said = |bytes: &[u8]| String::from_utf8_lossy(bytes).trim().replace('\n', " ");
    if asked.status.success() {
        Ok(PathBuf::from(said(&asked.stdout)))
    } else {
        Err(format!("asked for `{package}`: {}", said(&asked.stderr)))
    }
}

/// The folder of the package's own repository or installation, if it stands in one.
fn own_folder(package: &Path) -> Option<PathBuf> {
    let up = |levels: usize| package.ancestors().nth(levels).unwrap_or(package);
    if up(2).join("crates.txt").is_file() {
        Some(up(2).join("target/staticlib"))
    } else if package.ends_with("share/tak/rust") {
        Some(up(3).join("lib"))
    } else {
        None
    }
}

/// The folder that has the archive, or why none is found.
fn folder() -> Result<PathBuf, String> {
    let package = PathBuf::from(env::var_os("CARGO_MANIFEST_DIR").expect("cargo names the folder"));
    let has_archive = |folder: &PathBuf| folder.join(ARCHIVE).is_file();
    if let Some(named) = env::var_os("TAK_LIB").filter(|named| !named.is_empty()) {
        let folder = package.join(named);
        let missing = format!("it is not in {folder:?}, which TAK_LIB names");
        return Some(folder).filter(has_archive).ok_or(missing);
    }
    let own = own_folder(&package);
    if let Some(own) = own.clone().filter(has_archive) {
        return Ok(own);
    }
    let not_own = own.map_or(String::new(), |own| format!("it is not in {own:?}; "));
    match known_to_pkg_config() {
        Ok(known) if has_archive(&known) => Ok(known),
        Ok(known) => Err(format!(
            "{not_own}it is not in {known:?}, which pkg-config names"
        )),
        Err(said) => Err(format!("{not_own}pkg-config does not know it ({said})")),
    }
}

fn main() {
    for name in ["TAK_LIB", "PKG_CONFIG_PATH"] {
        println!("cargo::rerun-if-env-changed={name}");
    }
    let target = |part: &str| env::var(format!("CARGO_CFG_TARGET_{part}")).unwrap_or_default();
    if target("ARCH") != "x86_64" || ["windows", "uefi", "macos"].contains(&&*target("OS")) {
        println!(
            "cargo::error={ARCHIVE} has ELF code for x86-64 with the System V calling convention alone"
        );
        return;
    }
    match folder() {
        Ok(folder) => {
            println!("cargo::rerun-if-changed={}", folder.join(ARCHIVE).display());
            println!("cargo::rustc-link-search=native={}", folder.display());
            println!("cargo::rustc-link-lib=static=tak");
        }
        Err(reason) => println!(
            "cargo::error={ARCHIVE} was not found: {reason}. TAK_LIB can name its folder, PKG_CONFIG_PATH that of tak.pc; in the \
             repository `make library` builds it"
        ),
    }
}
