//! Finds libpsxgpu for the feature `machine`: in the folder that PSXGPU_LIB_DIR names, else where pkg-config's file of it
//! says, else in the `out/` of a checkout around this crate. The static library is linked if the folder has it.
use std::env;
use std::path::{Path, PathBuf};
use std::process::{self, Command};

/// The names of the static library, and of files by which the shared one is linked.
const STATIC: [&str; 2] = ["libpsxgpu.a", "psxgpu.lib"];
const SHARED: [&str; 3] = ["libpsxgpu.so", "libpsxgpu.dylib", "libpsxgpu.dll.a"];

fn main() {
    for name in ["PSXGPU_LIB_DIR", "PKG_CONFIG", "PKG_CONFIG_PATH"] {
        println!("cargo:rerun-if-env-changed={}", name);
    }
    println!("cargo:rerun-if-changed=build.rs");
    // The documentation alone links nothing.
    if env::var_os("CARGO_FEATURE_MACHINE").is_none() || env::var_os("DOCS_RS").is_some() {
        return;
    }
    match found() {
        Ok(library) => {
            println!("cargo:rerun-if-changed={}", library.folder.join(library.name).display());
            println!("cargo:rustc-link-search=native={}", library.folder.display());
            println!("cargo:rustc-link-lib={}=psxgpu", library.kind);
        }
        Err(message) => {
            eprintln!("psxgpu: {}", message);
            process::exit(1);
        }
    }
}

/// Where the library is, and how it is linked.
struct Library {
    folder: PathBuf,
    name: &'static str,
    kind: &'static str,
}

/// Returns the library, or what to do if there is none.
fn found() -> Result<Library, String> {
    if let Some(folder) = env::var_os("PSXGPU_LIB_DIR") {
        let folder = PathBuf::from(folder);
        if folder.is_relative() {
            return Err(format!("PSXGPU_LIB_DIR is {}: name its whole path", folder.display()));
        }
        return library_in(&folder).ok_or_else(|| {
            let place = folder.display();
            format!(
                "PSXGPU_LIB_DIR is {}, and libpsxgpu is not there: `make lib` builds it into out/ of a checkout",
                place
            )
        });
    }
    let folders = [of_pkg_config(), of_checkout()];
    folders.iter().flatten().find_map(|folder| library_in(folder)).ok_or_else(|| {
        "libpsxgpu was not found: build it by `make lib` in a checkout of psxgpu_tool, and set PSXGPU_LIB_DIR to its \
         folder out/; or install it by `make install`, so that pkg-config finds psxgpu.pc; or use this crate without \
         its feature `machine`"
            .to_owned()
    })
}

/// Returns the library in a folder, the static one if there are both.
fn library_in(folder: &Path) -> Option<Library> {
    let names = STATIC.iter().map(|&name| (name, "static")).chain(SHARED.iter().map(|&name| (name, "dylib")));
    let mut there = names.filter(|(name, _)| folder.join(name).is_file());
    there.next().map(|(name, kind)| Library { folder: folder.to_path_buf(), name, kind })
}

/// Returns the folder that pkg-config knows. Its files are for the host, so another target has none.
fn of_pkg_config() -> Option<PathBuf> {
    if env::var_os("HOST") != env::var_os("TARGET") {
        return None;
    }
    let program = env::var_os("PKG_CONFIG").unwrap_or_else(|| "pkg-config".into());
    let done = Command::new(program).args(["--variable=libdir", "psxgpu"]).output().ok()?;
    let folder = String::from_utf8(done.stdout).ok()?;
    if done.status.success() && !folder.trim().is_empty() {
        Some(PathBuf::from(folder.trim()))
    } else {
        None
    }
}

/// Returns where `make lib` leaves the library for the target, if this crate is in a checkout.
fn of_checkout() -> Option<PathBuf> {
    let top = Path::new(&env::var_os("CARGO_MANIFEST_DIR")?).ancestors().nth(2)?.to_path_buf();
    if !top.join("c").join("psxgpu.h").is_file() {
        return None;
    }
    let system = env::var("CARGO_CFG_TARGET_OS").ok()?;
    let processor = env::var("CARGO_CFG_TARGET_ARCH").ok()?;
    match (system.as_str(), processor.as_str()) {
        ("linux", "x86_64") => Some(top.join("out")),
        ("linux", "aarch64") => Some(top.join("out").join("aarch64")),
        ("macos", _) => Some(top.join("out").join("macos")),
        ("windows", "x86_64") => Some(top.join("out").join("windows")),
        _ => None,
    }
}
