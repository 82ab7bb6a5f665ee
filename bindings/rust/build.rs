//! Links `libreach.a`, from the folder `REACH_ARCHIVE_DIR` or from the repository's
//! `target/staticlib`.

use std::env;
use std::path::{Path, PathBuf};

/// The archive's folder. Cargo runs this program in the package's folder, so a relative
/// `REACH_ARCHIVE_DIR` is put after `PWD`: a shell keeps the folder there in which cargo is called.
fn folder() -> Result<PathBuf, String> {
    println!("cargo::rerun-if-env-changed=REACH_ARCHIVE_DIR");
    let Some(folder) = env::var_os("REACH_ARCHIVE_DIR") else {
        return Ok(Path::new(env!("CARGO_MANIFEST_DIR")).join("../../target/staticlib"));
    };
    let folder = PathBuf::from(folder);
    if folder.is_absolute() {
        return Ok(folder);
    }
    println!("cargo::rerun-if-env-changed=PWD");
    match env::var_os("PWD").map(PathBuf::from) {
        Some(caller) if caller.is_absolute() => Ok(caller.join(folder)),
        _ => Err(format!(
            "REACH_ARCHIVE_DIR is {}, and PWD does not say from where: set the whole path",
            folder.display()
        )),
    }
}

fn link() -> Result<(), String> {
    let target = env::var("CARGO_CFG_TARGET_ARCH").unwrap_or_default();
    if target != "x86_64" {
        return Err(format!("libreach.a is code for x86-64, not for {target}"));
    }
    let folder = folder()?;
    let archive = folder.join("libreach.a");
    println!("cargo::rerun-if-changed={}", archive.display());
    if !archive.is_file() {
        return Err(format!(
            "there is no {}: write it by `tools/build` in the repository, or set \
             REACH_ARCHIVE_DIR to the folder where it lies",
            archive.display()
        ));
    }
    println!("cargo::rustc-link-search=native={}", folder.display());
    println!("cargo::rustc-link-lib=static=reach");
    Ok(())
}

fn main() {
    if let Err(message) = link() {
        println!("cargo::error={message}");
    }
}
