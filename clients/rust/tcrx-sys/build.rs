//! Finds the library in the folder that TCRX_LIB_DIR names, or in the folder that the command pkg-config prints.
//! Otherwise builds it from the folder `dist` of the repository, by a C compiler and `make`.

use std::env;
use std::fs;
use std::path::{Path, PathBuf};
use std::process::{exit, Command};

/// Returns the folder that pkg-config prints, which is the variable `libdir` of dekorihe-static.pc. That file is
/// installed with each library.
fn found_by_pkg_config() -> Option<PathBuf> {
    let program = env::var_os("PKG_CONFIG").unwrap_or_else(|| "pkg-config".into());
    let ran = Command::new(program).args(["--variable=libdir", "dekorihe-static"]).output().ok()?;
    let text = String::from_utf8(ran.stdout).ok()?;
    (ran.status.success() && !text.trim().is_empty()).then(|| PathBuf::from(text.trim()))
}

/// Builds the library, and returns its folder. For another machine CC and AR must name the tools. Returns `None` if the
/// build fails, or if it is for another machine and CC isn't set.
fn made() -> Option<PathBuf> {
    let dist = Path::new(&env::var_os("CARGO_MANIFEST_DIR")?).join("../../../dist");
    let folder = PathBuf::from(env::var_os("OUT_DIR")?);
    if env::var_os("TARGET") != env::var_os("HOST") && env::var_os("CC").is_none() {
        return None;
    }
    println!("cargo:rerun-if-changed={}", dist.display());
    let libraries = ["libtcrx.a", "libtcrx.so"].map(|name| folder.join(name));
    let ran =
        Command::new("make").args(["-s", "-C"]).arg(dist).arg(format!("OUT={}", folder.display())).args(libraries).status().ok()?;
    ran.success().then_some(folder)
}

/// Returns whether a library has the calls of sessions of lines. Their names are then among its octets.
fn has_lines(library: &Path) -> bool {
    let name = b"tcrx_lines_answer_at";
    fs::read(library).is_ok_and(|octets| octets.windows(name.len()).any(|window| window == name))
}

fn main() {
    for name in ["TCRX_LIB_DIR", "PKG_CONFIG", "PKG_CONFIG_PATH", "CC", "AR"] {
        println!("cargo:rerun-if-env-changed={name}");
    }
    let Some(folder) = env::var_os("TCRX_LIB_DIR").map(PathBuf::from).or_else(found_by_pkg_config).or_else(made) else {
        eprintln!("tcrx-sys: there is no library, and it can't be built here by cc, ar and make (for another machine CC and AR name them).");
        eprintln!("Set TCRX_LIB_DIR to its folder, PREFIX/lib of an installation, or PKG_CONFIG_PATH to PREFIX/lib/pkgconfig.");
        exit(1);
    };
    let (kind, file) =
        if env::var_os("CARGO_FEATURE_SHARED").is_some() { ("dylib", "libtcrx.so") } else { ("static", "libtcrx.a") };
    if !folder.join(file).is_file() {
        eprintln!("tcrx-sys: there is no {file} in {}", folder.display());
        exit(1);
    }
    if env::var_os("CARGO_FEATURE_LINES").is_some() && !has_lines(&folder.join(file)) {
        eprintln!("tcrx-sys: {file} in {} has no sessions of lines, which are the feature `lines`.", folder.display());
        eprintln!("The library has them on x86-64 and aarch64, and not in portable C.");
        exit(1);
    }
    println!("cargo:rerun-if-changed={}", folder.join(file).display());
    println!("cargo:rustc-link-search=native={}", folder.display());
    println!("cargo:rustc-link-lib={kind}=tcrx");
    println!("cargo:lib-dir={}", folder.display());
}
