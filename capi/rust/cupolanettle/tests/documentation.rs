//! Each public item has an example; that they run, `cargo test` sees to. A search of the documents
//! finds calls by the names that they have elsewhere.
use std::collections::BTreeSet;
use std::fs;
use std::path::{Path, PathBuf};

/// All sources below this folder.
fn sources(folder: &Path) -> Vec<PathBuf> {
    let entries = fs::read_dir(folder).unwrap().map(|entry| entry.unwrap().path());
    entries
        .flat_map(|path| if path.is_dir() { sources(&path) } else { vec![path] })
        .filter(|path| path.extension().is_some_and(|extension| extension == "rs"))
        .collect()
}

/// The name of the public item that the line declares, but for modules and what is brought in.
fn declared(line: &str) -> Option<&str> {
    let mut words = line.trim().strip_prefix("pub ")?.split([' ', '(', '<', ';', ':']);
    let kind = words.next().filter(|word| *word != "const").or_else(|| words.next())?;
    let is_item = ["fn", "struct", "enum", "type", "trait"].contains(&kind);
    words.next().filter(|_| is_item)
}

/// The public items of this text that have no example.
fn without_example(text: &str) -> Vec<&str> {
    let mut found = Vec::new();
    let mut has_example = false;
    for line in text.lines() {
        if line.trim().starts_with("///") {
            has_example |= line.contains("```");
        } else if !line.trim().starts_with("#[") {
            found.extend(declared(line).filter(|_| !has_example));
            has_example = false;
        }
    }
    found
}

#[test]
fn each_public_item_has_an_example() {
    let folder = Path::new(env!("CARGO_MANIFEST_DIR")).join("src");
    for path in sources(&folder) {
        let text = fs::read_to_string(&path).unwrap();
        let found = without_example(&text);
        assert!(found.is_empty(), "{}: {found:?}", path.display());
    }
}

/// The names of the attribute on this line, by which a search finds the item below it, too.
fn aliases(line: &str) -> impl Iterator<Item = &str> {
    let is_alias = line.trim().starts_with("#[doc(alias");
    line.split('"').skip(1).step_by(2).filter(move |_| is_alias)
}

#[test]
fn names_of_other_maps_are_found() {
    let folder = Path::new(env!("CARGO_MANIFEST_DIR")).join("src");
    let texts: Vec<_> =
        sources(&folder).iter().map(|path| fs::read_to_string(path).unwrap()).collect();
    let found: BTreeSet<_> = texts.iter().flat_map(|text| text.lines()).flat_map(aliases).collect();
    let names = [
        // BTreeMap, dashmap, skip lists
        ["insert", "entry", "alter", "iterator", "len"],
        ["or_insert_with", "fetch_update", "extract_if", "drain", "first"],
        // atomics
        ["compare_exchange", "compare_and_swap", "fetch_add", "cas", "increment"],
        // LevelDB, RocksDB, LMDB, SQLite
        ["delete", "write_batch", "cursor", "compact_range", "merge"],
        ["upsert", "delete_range", "read_transaction", "scan", "truncate"],
        // pools of connections
        ["pool", "acquire", "checkout", "ConnectionPool", "try_lock"],
    ];
    for name in names.as_flattened() {
        assert!(found.contains(name), "{name}");
    }
}
