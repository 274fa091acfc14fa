//! Finds libymx, and says how it is linked. YMX_LIB_DIR is the folder in which it lies; otherwise, with the feature
//! `bundled`, it is the one that this package has, and without it pkg-config is asked, which PKG_CONFIG names and
//! PKG_CONFIG_PATH leads. YMX_LINK is `static`, which is usual, or `shared`.

use std::env;
use std::path::{Path, PathBuf};
use std::process::{exit, Command};

const LEAST_VERSION: &str = "0.3.0";

fn main() {
    for name in [
        "YMX_LIB_DIR",
        "YMX_LINK",
        "PKG_CONFIG",
        "PKG_CONFIG_PATH",
        "PKG_CONFIG_SYSROOT_DIR",
        "DOCS_RS",
    ] {
        println!("cargo:rerun-if-env-changed={name}");
    }
    if env::var_os("DOCS_RS").is_some() {
        return; // nothing is linked there
    }
    let folder = env::var_os("YMX_LIB_DIR")
        .filter(|folder| !folder.is_empty())
        .map_or_else(by_feature, PathBuf::from);
    let (kind, file) = match env::var("YMX_LINK").as_deref() {
        Ok("shared") => ("dylib", "libymx.so"),
        Ok("static") | Ok("") | Err(_) => ("static", "libymx.a"),
        Ok(other) => fail(&format!("YMX_LINK is `{other}`, and not `static` or `shared`")),
    };
    let library = folder.join(file);
    if !library.exists() {
        fail(&format!("there is no {}", library.display()));
    }
    println!("cargo:rerun-if-changed={}", library.display());
    println!("cargo:rustc-link-search=native={}", folder.display());
    println!("cargo:rustc-link-lib={kind}=ymx");
    if let Some(include) = folder.parent().map(|above| above.join("include")) {
        if Path::new(&include).exists() {
            println!("cargo:include={}", include.display());
        }
    }
}

/// The folder of the library that this package has, with the feature `bundled`, or else the one that pkg-config says.
fn by_feature() -> PathBuf {
    if env::var_os("CARGO_FEATURE_BUNDLED").is_none() {
        return by_pkg_config();
    }
    let of = |name: &str| env::var(name).unwrap_or_default();
    let place = Path::new(&of("CARGO_MANIFEST_DIR"))
        .join("bundled")
        .join(of("CARGO_CFG_TARGET_ARCH"));
    if of("CARGO_CFG_TARGET_OS") != "linux" || !place.exists() {
        fail(&format!("the feature `bundled` has none for {}", of("TARGET")));
    }
    place
}

/// The folder of the library, as pkg-config says.
fn by_pkg_config() -> PathBuf {
    let program = env::var_os("PKG_CONFIG").unwrap_or_else(|| "pkg-config".into());
    let asked = format!("ymx >= {LEAST_VERSION}");
    let said = Command::new(&program)
        .args(["--variable=libdir", "--print-errors", &asked])
        .output();
    match said {
        Ok(said) if said.status.success() => PathBuf::from(String::from_utf8_lossy(&said.stdout).trim()),
        Ok(said) => fail(String::from_utf8_lossy(&said.stderr).trim()),
        Err(error) => fail(&format!("{} can't be run: {error}", program.to_string_lossy())),
    }
}

fn fail(why: &str) -> ! {
    eprintln!("libymx {LEAST_VERSION} or later, the library for C of the ymx repository, is not found: {why}");
    eprintln!("Build and install it by `c/build.sh install` there, with pkg-config from your system's packages.");
    eprintln!("Or let YMX_LIB_DIR name the folder in which libymx.a lies, as c/out/lib behind `c/build.sh`.");
    exit(1);
}
