//! Which part of the program uses which: the model neither of the others, the
//! text the model alone.

use std::fs;
use std::path::Path;

/// The text of every file in a folder and below it.
fn files(folder: &Path) -> Vec<(String, String)> {
    let mut list = Vec::new();
    for entry in fs::read_dir(folder).expect("the folder is there") {
        let path = entry.expect("it can be listed").path();
        if path.is_dir() {
            list.extend(files(&path));
        } else {
            let text = fs::read_to_string(&path).expect("it can be read");
            list.push((path.display().to_string(), text));
        }
    }
    list
}

/// No file of a part names a module of one of the others.
fn assert_apart(part: &str, others: &[&str]) {
    let folder = Path::new(env!("CARGO_MANIFEST_DIR")).join("src").join(part);
    let files = files(&folder);
    assert!(files.len() > 3, "{part} has files");
    for (name, text) in files {
        assert!(!text.contains("crate::{"), "{name}: name the part");
        for other in others {
            let path = format!("crate::{other}");
            assert!(!text.contains(&path), "{name} uses {other}");
        }
    }
}

#[test]
fn the_model_uses_no_other_part() {
    assert_apart("model", &["text", "generator"]);
}

#[test]
fn the_text_uses_the_model_alone() {
    assert_apart("text", &["generator"]);
}
