//! Tells cargo where the proved library lies: in target/hosts of this repository, where `hosts/build` puts it, or in the
//! folder that DESK_LIBRARY_DIR names.

use std::env;
use std::path::{Path, PathBuf};
use std::process::exit;

fn fail(sentence: String) -> ! {
    eprintln!("{sentence}");
    exit(1)
}

/// A variable that cargo sets for every such program.
fn told(name: &str) -> String {
    env::var(name).unwrap_or_else(|_| {
        fail(format!(
            "{name} is not set; this program is for cargo to run"
        ))
    })
}

fn folder() -> PathBuf {
    match env::var_os("DESK_LIBRARY_DIR") {
        Some(folder) if Path::new(&folder).is_absolute() => folder.into(),
        // Cargo runs this program in the folder of the package, and the linker elsewhere.
        Some(folder) => fail(format!(
            "DESK_LIBRARY_DIR is {}, which is no absolute path; name the folder that has libdesk.a from / on",
            Path::new(&folder).display()
        )),
        None => Path::new(&told("CARGO_MANIFEST_DIR")).join("../../target/hosts"),
    }
}

fn main() {
    let (processor, system) = (told("CARGO_CFG_TARGET_ARCH"), told("CARGO_CFG_TARGET_OS"));
    if (&processor[..], &system[..]) != ("x86_64", "linux") {
        fail(format!(
            "the desk's library is for x86-64 Linux, and this build is for {processor} and {system}; \
             give cargo --target x86_64-unknown-linux-gnu (hosts/rust/test shows how, on another processor)"
        ));
    }
    let folder = folder();
    let library = folder.join("libdesk.a");
    if !library.is_file() {
        fail(format!(
            "there is no library {}; run hosts/build first, or name the folder that has libdesk.a in DESK_LIBRARY_DIR",
            library.display()
        ));
    }
    println!("cargo:rerun-if-env-changed=DESK_LIBRARY_DIR");
    println!("cargo:rerun-if-changed={}", library.display());
    println!("cargo:rustc-link-search=native={}", folder.display());
}
