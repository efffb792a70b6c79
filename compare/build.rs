//! Brings the Rust of dashpay/grovedb into the build. Nothing of that Rust is kept in the repository: its files are copied to OUT_DIR,
//! unchanged but for query_item/mod.rs, from which the parts that lean on bincode and serde are cut. And links an earlier library of ours, where
//! one is named, for the benchmark alone.

use std::{
    env, fs,
    path::{Path, PathBuf},
    process::exit,
};

/// What is cut from query_item/mod.rs: all from the first marker on, up to the second.
const CUTS: [(&str, &str); 3] = [
    (
        "use bincode::{\n",
        "#[cfg(feature = \"blockchain\")]\nuse grovedb_costs::",
    ),
    (
        "#[cfg(feature = \"serde\")]\nuse serde::de::VariantAccess;\n",
        "use crate::{error::Error, hex_to_ascii};\n",
    ),
    (
        "#[cfg(feature = \"serde\")]\nimpl Serialize for QueryItem {\n",
        "impl fmt::Display for QueryItem {\n",
    ),
];

/// What lib.rs includes: the original's modules, at the crate's root, where their own paths look for one another.
const ROOT: &str = "\
#[allow(dead_code)]
mod insert;
#[allow(dead_code)]
mod position_intervals;
#[allow(dead_code)]
mod query_item;
";

fn main() {
    if let Err(text) = bring_rust().and_then(|()| bring_earlier()) {
        eprintln!("compare: {text}");
        exit(1);
    }
}

/// The two libraries that `tools/earlier` has made, in the folder that EARLIER_LIBS names, if it names one.
fn bring_earlier() -> Result<(), String> {
    println!("cargo:rerun-if-env-changed=EARLIER_LIBS");
    let Some(name) = env::var_os("EARLIER_LIBS").filter(|name| !name.is_empty()) else {
        return Ok(());
    };
    let folder = PathBuf::from(variable("CARGO_MANIFEST_DIR")?)
        .join("..")
        .join(name);
    println!("cargo:rerun-if-changed={}", folder.display());
    println!("cargo:rustc-link-search=native={}", folder.display());
    println!("cargo:rustc-link-lib=static=ours");
    println!("cargo:rustc-link-lib=static=earlier");
    println!("cargo:rustc-cfg=earlier");
    Ok(())
}

fn bring_rust() -> Result<(), String> {
    let source = place("GROVEDB_SRC", "../shared/docs/src")?;
    let query = source.join("grovedb-query/src");
    let proof = source.join("grovedb/src/operations/proof");
    let out = PathBuf::from(variable("OUT_DIR")?);
    for (folder, name) in [
        (&query, "insert.rs"),
        (&query, "query_item/intersect.rs"),
        (&proof, "position_intervals.rs"),
    ] {
        write(&out.join(name), &read(&folder.join(name))?)?;
    }
    let items = query.join("query_item/mod.rs");
    let mut text = read(&items)?;
    for (from, to) in CUTS {
        text = cut(&text, from, to).map_err(|why| format!("{}: {why}", items.display()))?;
    }
    write(&out.join("query_item/mod.rs"), &text)?;
    // query_item/mod.rs declares it, and it is not at hand: src/stand_ins.rs has what is asked of it
    write(&out.join("query_item/merge.rs"), "")?;
    write(&out.join("grovedb.rs"), ROOT)
}

/// The folder that an environment variable names, or else the usual one; both are read from the project's root.
fn place(name: &str, usual: &str) -> Result<PathBuf, String> {
    println!("cargo:rerun-if-env-changed={name}");
    let root = PathBuf::from(variable("CARGO_MANIFEST_DIR")?).join("..");
    Ok(root.join(env::var_os(name).unwrap_or_else(|| usual.into())))
}

fn variable(name: &str) -> Result<String, String> {
    env::var(name).map_err(|_| format!("{name} is not set: build with cargo"))
}

fn read(path: &Path) -> Result<String, String> {
    println!("cargo:rerun-if-changed={}", path.display());
    fs::read_to_string(path).map_err(|why| {
        format!(
            "cannot read {} ({why}): set GROVEDB_SRC to the folder that holds grovedb-query/ and grovedb/",
            path.display()
        )
    })
}

fn write(path: &Path, text: &str) -> Result<(), String> {
    path.parent()
        .map_or(Ok(()), fs::create_dir_all)
        .and_then(|()| fs::write(path, text))
        .map_err(|why| format!("cannot write {} ({why})", path.display()))
}

fn cut(text: &str, from: &str, to: &str) -> Result<String, String> {
    let (start, end) = (only(text, from)?, only(text, to)?);
    if end < start {
        return Err(format!("the marker {from:?} does not stand before {to:?}"));
    }
    Ok([&text[..start], &text[end..]].concat())
}

/// Where the marker stands, if it stands at the start of one line alone.
fn only(text: &str, marker: &str) -> Result<usize, String> {
    let mut places = text
        .match_indices(marker)
        .map(|(at, _)| at)
        .filter(|at| text[..*at].ends_with('\n') || *at == 0);
    match (places.next(), places.count()) {
        (Some(at), 0) => Ok(at),
        (None, _) => Err(format!(
            "the marker {marker:?} is not in it: this is another version, and CUTS in compare/build.rs has to follow it"
        )),
        (Some(_), more) => Err(format!(
            "the marker {marker:?} stands {} times in it, and must stand once",
            more + 1
        )),
    }
}
