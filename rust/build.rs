//! Points the linker at the static library of the repository, `target/staticlib/libfstf.a` for x86-64 Linux and `target/arm/libfstf.a` for 64-bit Arm Linux,
//! or at the directory that `FSTF_LIBRARY` names. What is missing is said in one sentence, and ends the build.
use std::env;
use std::path::PathBuf;
use std::process::exit;

fn end(why: &str) -> ! {
    eprintln!("error: {}", why);
    exit(1);
}

fn target(what: &str) -> String {
    env::var(format!("CARGO_CFG_TARGET_{}", what)).unwrap_or_default()
}

fn main() {
    println!("cargo:rerun-if-changed=build.rs");
    println!("cargo:rerun-if-env-changed=FSTF_LIBRARY");
    let (processor, system) = (target("ARCH"), target("OS"));
    let wide = target("POINTER_WIDTH") == "64" && target("ENDIAN") == "little";
    let (folder, command) = match (processor.as_str(), system.as_str()) {
        ("x86_64", "linux") if wide => ("staticlib", "./staticlib"),
        ("aarch64", "linux") if wide => ("arm", "arm/build"),
        _ => {
            let name = env::var("TARGET").unwrap_or_default();
            end(&format!("there is a library for x86-64 Linux and for 64-bit Arm Linux, and none for {}", name))
        }
    };
    let here = PathBuf::from(env::var_os("CARGO_MANIFEST_DIR").unwrap_or_default());
    let named = env::var_os("FSTF_LIBRARY").map(PathBuf::from);
    let directory = named.unwrap_or_else(|| here.join("..").join("target").join(folder));
    let library = directory.join("libfstf.a");
    println!("cargo:rerun-if-changed={}", library.display());
    if !library.exists() {
        end(&format!("no libfstf.a in {}: run `{}` at the top of the repository, or name its folder in FSTF_LIBRARY", directory.display(), command));
    }
    println!("cargo:rustc-link-search=native={}", directory.display());
    println!("cargo:rustc-link-lib=static=fstf");
}
