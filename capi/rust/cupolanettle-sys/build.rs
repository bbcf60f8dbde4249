//! Links `libclsm.a`: from the folder that `CLSM_LIB_DIR` names, if that is set, else from
//! `capi/out` of the repository, else from where pkg-config finds `clsm`.
use std::env;
use std::path::{Path, PathBuf};
use std::process::{exit, Command};

const ARCHIVE: &str = "libclsm.a";
const NAMED: &str = "CLSM_LIB_DIR";

fn main() {
    println!("cargo::rerun-if-changed=build.rs");
    for variable in [NAMED, "PKG_CONFIG", "PKG_CONFIG_PATH"] {
        println!("cargo::rerun-if-env-changed={variable}");
    }
    let folder = match env::var_os(NAMED) {
        Some(folder) => named(folder.into()),
        None => built().or_else(installed).unwrap_or_else(|| {
            fail(&format!("no {ARCHIVE} was found, and {NAMED} is not set"));
        }),
    };
    println!("cargo::rerun-if-changed={}", folder.join(ARCHIVE).display());
    println!("cargo::rustc-link-search=native={}", folder.display());
    println!("cargo::rustc-link-lib=static=clsm");
    println!("cargo::metadata=libdir={}", folder.display());
}

fn fail(reason: &str) -> ! {
    eprintln!(
        "{reason}. Build it by `make -C capi` in the repository, install it where pkg-config finds \
         `clsm`, or set {NAMED} to the folder that has it."
    );
    exit(1);
}

fn has_archive(folder: &Path) -> bool {
    folder.join(ARCHIVE).is_file()
}

/// The folder that the environment names, which is to have it. This program and the compiler run
/// in folders of their own, so that they would take other paths for different ones.
fn named(folder: PathBuf) -> PathBuf {
    if !folder.is_absolute() {
        fail(&format!("{NAMED} names {}, which is no absolute path", folder.display()));
    }
    if !has_archive(&folder) {
        fail(&format!("{NAMED} names {}, which has no {ARCHIVE}", folder.display()));
    }
    println!("{ARCHIVE} of {}, which {NAMED} names", folder.display());
    folder
}

/// The folder in which `make -C capi` leaves it, if this crate stands in the repository.
fn out_of_repository() -> Option<PathBuf> {
    let capi = Path::new(&env::var_os("CARGO_MANIFEST_DIR")?).join("../..").canonicalize().ok()?;
    capi.join("clsm.h").is_file().then(|| capi.join("out"))
}

/// The same, if it was left there.
fn built() -> Option<PathBuf> {
    let folder = out_of_repository()?;
    println!("cargo::rerun-if-changed={}", folder.join(ARCHIVE).display());
    if !has_archive(&folder) {
        return None;
    }
    println!("{ARCHIVE} of {}, the repository's own; {NAMED} is not set", folder.display());
    Some(folder)
}

/// The folder in which it was installed.
fn installed() -> Option<PathBuf> {
    let version = asked_of_pkg_config("--modversion")?;
    let folder = PathBuf::from(asked_of_pkg_config("--variable=libdir")?);
    if !has_archive(&folder) {
        return None;
    }
    println!("{ARCHIVE} of {}, which pkg-config finds; {NAMED} is not set", folder.display());
    if let Some(out) = out_of_repository() {
        let (taken, empty) = (folder.display(), out.display());
        println!("cargo::warning={ARCHIVE} of {taken} is linked, as {empty} has none yet");
    }
    let wanted = env!("CARGO_PKG_VERSION");
    if version != wanted {
        println!("cargo::warning=pkg-config finds clsm {version}, and this crate is for {wanted}");
    }
    Some(folder)
}

/// What pkg-config answers for `clsm`, in one line.
fn asked_of_pkg_config(question: &str) -> Option<String> {
    let program = env::var_os("PKG_CONFIG").unwrap_or_else(|| "pkg-config".into());
    let output = Command::new(program).args([question, "clsm"]).output().ok()?;
    let answer = String::from_utf8(output.stdout).ok()?;
    output.status.success().then(|| answer.trim().to_owned())
}
