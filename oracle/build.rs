//! Copies the six files of the vector module into the ignored `src/vector`, byte for byte.

use std::path::{Path, PathBuf};
use std::{env, fs};

const FILES: [&str; 6] = [
    "vector/vector_types.rs",
    "vector/operations/convert.rs",
    "vector/operations/distance_cos.rs",
    "vector/operations/distance_dot.rs",
    "vector/operations/distance_l2.rs",
    "vector/operations/jaccard.rs",
];

/// Where the files are, from the repository's root, unless `VECTOR_SOURCE` says otherwise.
const SOURCE: &str = "../shared/docs/src";

fn main() {
    println!("cargo::rerun-if-env-changed=VECTOR_SOURCE");
    let here = PathBuf::from(env::var_os("CARGO_MANIFEST_DIR").expect("cargo names the package"));
    let named = env::var_os("VECTOR_SOURCE").unwrap_or_else(|| SOURCE.into());
    let root = here.parent().expect("the oracle stands in a repository");
    for file in FILES {
        if let Err(why) = copy(&root.join(&named).join(file), &here.join("src").join(file)) {
            println!("cargo::error={why}");
            return;
        }
    }
}

/// Leaves `to` equal to `from` and looks at both again.
fn copy(from: &Path, to: &Path) -> Result<(), String> {
    println!("cargo::rerun-if-changed={}", from.display());
    println!("cargo::rerun-if-changed={}", to.display());
    let source = fs::read(from).map_err(|error| {
        let from = from.display();
        format!("no vector module at {from} ({error}); VECTOR_SOURCE names its directory")
    })?;
    if fs::read(to).ok().as_ref() != Some(&source) {
        let folder = to.parent().expect("a file stands in a folder");
        fs::create_dir_all(folder)
            .and_then(|()| fs::write(to, &source))
            .map_err(|error| format!("cannot write {}: {error}", to.display()))?;
    }
    match (fs::read(from), fs::read(to)) {
        (Ok(source), Ok(copied)) if source == copied => Ok(()),
        _ => Err(format!(
            "{} is not {} byte for byte",
            to.display(),
            from.display()
        )),
    }
}
