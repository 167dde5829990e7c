//! Finds the proved library: in the folder that `LASSO_LIB_DIR` names, or else by pkg-config.

use std::env;
use std::path::Path;
use std::process::{exit, Command};

const HOW_TO_BUILD: &str = "\
It is built in the repository of lasso, at its top:

    make install    # copies it below /usr/local, where pkg-config finds it
    make c          # or builds it only; then export LASSO_LIB_DIR=the repository's folder out";

fn main() {
    println!("cargo:rerun-if-changed=build.rs");
    for name in [
        "LASSO_LIB_DIR",
        "PKG_CONFIG",
        "PKG_CONFIG_PATH",
        "PKG_CONFIG_LIBDIR",
        "PKG_CONFIG_SYSROOT_DIR",
        "PKG_CONFIG_SYSTEM_LIBRARY_PATH",
        "PKG_CONFIG_ALLOW_SYSTEM_LIBS",
    ] {
        println!("cargo:rerun-if-env-changed={name}");
    }
    let linked = match env::var("LASSO_LIB_DIR") {
        Ok(folder) => link_archive(Path::new(&folder)),
        Err(env::VarError::NotPresent) => link_by_pkg_config(),
        Err(error) => Err(format!("LASSO_LIB_DIR can't be read: {error}")),
    };
    if let Err(reason) = linked {
        eprintln!("lasso_proved needs the library liblasso. {reason}.\n{HOW_TO_BUILD}");
        exit(1);
    }
}

/// Links `liblasso.a` of a folder, which has all that it needs.
fn link_archive(folder: &Path) -> Result<(), String> {
    let shown = folder.display();
    let folder = folder
        .canonicalize()
        .map_err(|error| format!("The folder {shown:?} can't be read: {error}"))?;
    // cargo takes each line that is printed for an order, and cuts the blanks at its end.
    let name = folder
        .to_str()
        .filter(|name| !name.contains('\n') && name.trim_end() == *name)
        .ok_or_else(|| format!("cargo can't be told the folder {folder:?}"))?;
    if !folder.join("liblasso.a").is_file() {
        return Err(format!("The folder {shown:?} has no liblasso.a"));
    }
    println!("cargo:rerun-if-changed={name}/liblasso.a");
    println!("cargo:rustc-link-search=native={name}");
    println!("cargo:rustc-link-lib=static=lasso");
    Ok(())
}

/// The words that pkg-config prints: blanks end them, unless a backslash is before a blank. Of a letter that is not
/// ASCII each byte has one. None, if a word is not UTF-8: cargo can't be told it.
fn words_of(text: &[u8]) -> Option<Vec<String>> {
    let mut words = vec![Vec::new()];
    let mut bytes = text.iter().copied();
    while let Some(byte) = bytes.next() {
        let last = words.len() - 1;
        match byte {
            b'\\' => words[last].extend(bytes.next()),
            _ if byte.is_ascii_whitespace() => words.push(Vec::new()),
            _ => words[last].push(byte),
        }
    }
    words.retain(|word| !word.is_empty());
    words
        .into_iter()
        .map(|word| String::from_utf8(word).ok())
        .collect()
}

/// Links what lasso.pc names: the installed library, or the file that `make c` has built. Another
/// library, of version 2, has a lasso.pc too; it is refused by its version.
fn link_by_pkg_config() -> Result<(), String> {
    let command = env::var("PKG_CONFIG").unwrap_or_else(|_| "pkg-config".to_owned());
    let output = Command::new(&command)
        .args(["--libs", "lasso < 1"])
        .output()
        .map_err(|error| {
            format!("LASSO_LIB_DIR is not set, and {command} can't be run: {error}")
        })?;
    if !output.status.success() {
        let told = String::from_utf8_lossy(&output.stderr);
        return Err(format!(
            "LASSO_LIB_DIR is not set, and {command} says: {}",
            told.trim()
        ));
    }
    let words = words_of(&output.stdout)
        .ok_or_else(|| format!("{command} names a folder that is not UTF-8"))?;
    // cargo takes each line that is printed for an order, and cuts the blanks at its end.
    let is_told = |word: &str| !word.contains('\n') && word.trim_end() == word;
    if let Some(word) = words.iter().find(|word| !is_told(word)) {
        return Err(format!("{command} names {word:?}, which cargo can't be told"));
    }
    // The loader doesn't look into such a folder, and an rpath reaches no program of another crate.
    let unknown = words.iter().find_map(|word| word.strip_prefix("-Wl,-rpath,"));
    if let Some(folder) = unknown {
        return link_archive(Path::new(folder));
    }
    for word in &words {
        if let Some(folder) = word.strip_prefix("-L") {
            println!("cargo:rustc-link-search=native={folder}");
        } else if let Some(library) = word.strip_prefix("-l") {
            println!("cargo:rustc-link-lib={library}");
        } else if let Some(folder) = word.strip_suffix("/liblasso.a") {
            link_archive(Path::new(folder))?;
        } else {
            return Err(format!(
                "{command} names {word}, which this crate can't link"
            ));
        }
    }
    Ok(())
}
