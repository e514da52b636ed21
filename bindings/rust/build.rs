//! Links the static archive of the proved library: the one in the folder TRIVSOME_ARCHIVE, if that is set, or the one that
//! `native/build` at the repository's root makes for this machine.

use std::path::{Path, PathBuf};
use std::process::{Command, Stdio};

fn main() {
    println!("cargo:rerun-if-env-changed=TRIVSOME_ARCHIVE");
    let folder = match std::env::var_os("TRIVSOME_ARCHIVE") {
        Some(folder) => PathBuf::from(folder),
        None => built(),
    };
    println!("cargo:rerun-if-changed={}", folder.join("libtrivsome.a").display());
    println!("cargo:rustc-link-search=native={}", folder.display());
    println!("cargo:rustc-link-lib=static=trivsome");
}

/// What the archive is made of. Of a crate's folder that is not its out/, where the Rattle kit keeps what it makes.
fn sources(root: &Path) -> Vec<PathBuf> {
    let crates = std::fs::read_dir(root.join("crates")).into_iter().flatten().flatten();
    let parts = crates.flat_map(|each| ["src", "specs", "proofs"].map(|part| each.path().join(part)));
    ["crates.txt", "native"].map(|name| root.join(name)).into_iter().chain(parts).filter(|path| path.exists()).collect()
}

/// The folder of the archive that is built. The script's last line is the archive's path.
fn built() -> PathBuf {
    let root = Path::new(env!("CARGO_MANIFEST_DIR")).join("../..");
    for source in sources(&root) {
        println!("cargo:rerun-if-changed={}", source.display());
    }
    let script = root.join("native/build");
    let output = Command::new(&script).arg("library").current_dir(&root).stderr(Stdio::inherit()).output();
    let output = output.unwrap_or_else(|why| panic!("{}: {why}", script.display()));
    let text = String::from_utf8_lossy(&output.stdout);
    assert!(output.status.success(), "{} library: {}\n{text}", script.display(), output.status);
    let archive = root.join(text.lines().last().unwrap_or_default().trim());
    assert!(archive.is_file(), "{} library: its last line is no archive's path\n{text}", script.display());
    archive.parent().map_or(root, Path::to_path_buf)
}
