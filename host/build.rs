//! Links the static library of target/dist, or of the folder that SOTRUGLA_DIST names: what `./build` writes to
//! target/dist, or what `./build --prefix` installs. The library must be of the crate's own version.

use std::path::{Path, PathBuf};
use std::{env, fs, process};

fn main() {
    println!("cargo:rerun-if-env-changed=SOTRUGLA_DIST");
    match linked() {
        Ok(folder) => {
            println!("cargo:rustc-link-search=native={}", folder.display());
            println!("cargo:rustc-link-lib=static=sotrugla");
        }
        Err(sentence) => {
            // A newer cargo says this at once; every cargo shows standard error.
            println!("cargo::error={sentence}");
            eprintln!("{sentence}");
            process::exit(1);
        }
    }
}

/// The folder of the archive, or a sentence that says what to do.
fn linked() -> Result<PathBuf, String> {
    let (folder, header) = found(&named()?)?;
    for file in [&folder.join(ARCHIVE), &header] {
        println!("cargo:rerun-if-changed={}", file.display());
    }
    see_version(&header)?;
    Ok(folder)
}

const ARCHIVE: &str = "libsotrugla.a";

/// Where `./build` writes, unless SOTRUGLA_DIST says otherwise.
fn named() -> Result<PathBuf, String> {
    let beside = Path::new(env!("CARGO_MANIFEST_DIR")).with_file_name("target").join("dist");
    let folder = env::var_os("SOTRUGLA_DIST").map_or(beside, PathBuf::from);
    // Cargo runs this in the crate's folder, which is not where the caller stands.
    if folder.is_relative() {
        return Err(format!(
            "SOTRUGLA_DIST is {}, which is no whole path from /",
            folder.display()
        ));
    }
    Ok(folder)
}

/// The archive's folder, and the header that belongs to it.
fn found(folder: &Path) -> Result<(PathBuf, PathBuf), String> {
    for (archive, header) in [("", "sotrugla.h"), ("lib", "include/sotrugla.h")] {
        if folder.join(archive).join(ARCHIVE).exists() {
            return Ok((folder.join(archive), folder.join(header)));
        }
    }
    Err(format!(
        "neither {ARCHIVE} nor lib/{ARCHIVE} stands in {}: run Sotrugla's ./build first",
        folder.display()
    ))
}

fn see_version(header: &Path) -> Result<(), String> {
    let text = fs::read_to_string(header)
        .map_err(|why| format!("{} cannot be read: {why}", header.display()))?;
    let version = text
        .lines()
        .find_map(|line| line.strip_prefix("#define SOTRUGLA_VERSION ")?.split('"').nth(1))
        .unwrap_or("none");
    if version != env!("CARGO_PKG_VERSION") {
        return Err(format!(
            "{} is of version {version}, this crate of {}: run ./build of the crate's own version first",
            header.display(),
            env!("CARGO_PKG_VERSION")
        ));
    }
    Ok(())
}
