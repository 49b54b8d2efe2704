// SPDX-License-Identifier: MIT OR Apache-2.0
//! The files of `examples/`, and of any folder.

use std::path::Path;

/// The files of `examples/`.
pub fn examples() -> Vec<(String, Vec<u8>)> {
    files_of(&Path::new(env!("CARGO_MANIFEST_DIR")).join("../../examples"))
}

/// Name (without its ending) and bytes of each .txt file, by name.
pub fn files_of(folder: &Path) -> Vec<(String, Vec<u8>)> {
    let mut files: Vec<(String, Vec<u8>)> = std::fs::read_dir(folder)
        .expect("the folder is there")
        .map(|entry| entry.expect("a file of the folder").path())
        .filter(|path| path.extension().is_some_and(|e| e == "txt"))
        .map(|path| {
            let name = path.file_stem().expect("it has a name");
            let file = std::fs::read(&path).expect("a file of the folder");
            (name.to_string_lossy().into_owned(), file)
        })
        .collect();
    files.sort();
    files
}
