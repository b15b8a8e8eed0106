//! Links libfulandewu.a: from the directory that FULANDEWU_LIB_DIR names, else from where embed/build puts it in
//! the repository. There is one for 64-bit Linux on x86-64 and one on aarch64; another target is refused.

use std::env;
use std::path::PathBuf;
use std::process::exit;

const ARCHIVE: &str = "libfulandewu.a";

/// An archive: what embed/build calls its target, and the directory it is put in.
struct Made {
    target: &'static str,
    folder: &'static str,
}

fn main() {
    println!("cargo:rerun-if-env-changed=FULANDEWU_LIB_DIR");
    let made = made_for_this_target();
    let folder = match env::var_os("FULANDEWU_LIB_DIR") {
        Some(named) => PathBuf::from(named),
        None => PathBuf::from(
            env::var_os("CARGO_MANIFEST_DIR").expect("cargo names the package's directory"),
        )
        .join("../..")
        .join(made.folder),
    };
    let archive = folder.join(ARCHIVE);
    println!("cargo:rerun-if-changed={}", archive.display());
    if !archive.is_file() {
        eprintln!(
            "There is no {} in {}.\n\
             `embed/build {}`, in the root of the repository, proves it and writes it to {}.\n\
             If it stands elsewhere, FULANDEWU_LIB_DIR names its directory.",
            ARCHIVE,
            folder.display(),
            made.target,
            made.folder
        );
        exit(1);
    }
    println!("cargo:rustc-link-search=native={}", folder.display());
    println!("cargo:rustc-link-lib=static=fulandewu");
}

fn made_for_this_target() -> Made {
    let about = |name: &str| env::var(format!("CARGO_CFG_TARGET_{}", name)).unwrap_or_default();
    let (processor, system) = (about("ARCH"), about("OS"));
    let (width, order) = (about("POINTER_WIDTH"), about("ENDIAN"));
    match (&processor[..], &width[..], &order[..], &system[..]) {
        ("x86_64", "64", "little", "linux") => Made {
            target: "x86-64",
            folder: "target/staticlib",
        },
        ("aarch64", "64", "little", "linux") => Made {
            target: "aarch64",
            folder: "target/aarch64",
        },
        _ => {
            eprintln!(
                "{} is for 64-bit Linux on x86-64 or aarch64, and this build is for {}-bit {}-endian {} {}.\n\
                 `cargo build --target x86_64-unknown-linux-gnu` or `--target aarch64-unknown-linux-gnu` \
                 builds for one of them.",
                ARCHIVE, width, order, processor, system
            );
            exit(1);
        }
    }
}
