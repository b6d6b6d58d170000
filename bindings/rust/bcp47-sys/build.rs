//! Finds libbcp47: in the folder that BCP47_LIB_DIR names, in this crate, in the repository's build/, by pkg-config, or by the linker's
//! own search.
use std::env;
use std::path::{Path, PathBuf};
use std::process::{self, Command};

fn main() {
    println!("cargo:rerun-if-env-changed=BCP47_LIB_DIR");
    let here = PathBuf::from(env::var_os("CARGO_MANIFEST_DIR").expect("cargo sets it"));
    let target = env::var("TARGET").expect("cargo sets it");
    if let Some(named) = env::var_os("BCP47_LIB_DIR").map(PathBuf::from) {
        if !links(&named) {
            eprintln!("BCP47_LIB_DIR is {}, which has no libbcp47.a and no libbcp47.so", named.display());
            process::exit(1);
        }
        return;
    }
    let built = match target.as_str() {
        "aarch64-unknown-linux-gnu" => "../../../build/aarch64",
        _ => "../../../build",
    };
    if links(&here.join("lib").join(&target)) || here.join("../../c").is_dir() && links(&here.join(built)) {
        return;
    }
    println!("cargo:rustc-link-lib=dylib=bcp47");
    let asked = Command::new("pkg-config").args(["--variable=libdir", "bcp47 >= 1.1.0"]).output();
    match asked {
        Ok(answer) if answer.status.success() => {
            println!("cargo:rustc-link-search=native={}", String::from_utf8_lossy(&answer.stdout).trim());
        }
        _ => println!(
            "cargo:warning=libbcp47 is neither here nor known to pkg-config: unless the linker finds it, name its folder by BCP47_LIB_DIR"
        ),
    }
}

/// Links the library of a folder, if there is one, and looks again when it changes.
fn links(folder: &Path) -> bool {
    println!("cargo:rerun-if-changed={}", folder.join("libbcp47.a").display());
    let kind = match ["libbcp47.a", "libbcp47.so"].map(|file| folder.join(file).exists()) {
        [true, _] => "static",
        [_, true] => "dylib",
        _ => return false,
    };
    println!("cargo:rustc-link-search=native={}", folder.display());
    println!("cargo:rustc-link-lib={kind}=bcp47");
    true
}
