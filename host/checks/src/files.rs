//! The files of the repository's crates.

use std::path::{Path, PathBuf};
use std::{fs, io};

/// A file by its path from the repository's root, and its text.
pub struct File {
    pub path: String,
    pub text: String,
}

/// The names of the folders of crates/.
pub fn crates(root: &Path) -> io::Result<Vec<String>> {
    let mut folders = sorted(&root.join("crates"))?;
    folders.retain(|path| path.is_dir());
    let name = |path: PathBuf| path.file_name().map(|name| name.display().to_string());
    Ok(folders.into_iter().filter_map(name).collect())
}

/// The files of this extension in the folder `part` of each crate, subfolders left out.
pub fn directly_in(root: &Path, part: &str, extension: &str) -> io::Result<Vec<File>> {
    let mut paths = Vec::new();
    for folder in parts(root, part)? {
        paths.extend(sorted(&folder)?.into_iter().filter(|path| path.is_file()));
    }
    read(root, paths, extension)
}

/// The files of this extension below the folder `part` of each crate, subfolders included.
pub fn below(root: &Path, part: &str, extension: &str) -> io::Result<Vec<File>> {
    let mut paths = Vec::new();
    for folder in parts(root, part)? {
        collect(&folder, &mut paths)?;
    }
    read(root, paths, extension)
}

/// The folders `part` of the crates that have one.
fn parts(root: &Path, part: &str) -> io::Result<Vec<PathBuf>> {
    let folder = |name: &String| root.join("crates").join(name).join(part);
    let mut folders: Vec<PathBuf> = crates(root)?.iter().map(folder).collect();
    folders.retain(|folder| folder.is_dir());
    Ok(folders)
}

fn collect(folder: &Path, paths: &mut Vec<PathBuf>) -> io::Result<()> {
    for path in sorted(folder)? {
        if path.is_dir() {
            collect(&path, paths)?;
        } else {
            paths.push(path);
        }
    }
    Ok(())
}

fn read(root: &Path, mut paths: Vec<PathBuf>, extension: &str) -> io::Result<Vec<File>> {
    paths.retain(|path| path.extension().is_some_and(|of| of == extension));
    let file = |path: PathBuf| {
        Ok(File {
            text: fs::read_to_string(&path)?,
            path: path
                .strip_prefix(root)
                .unwrap_or(&path)
                .display()
                .to_string(),
        })
    };
    paths.into_iter().map(file).collect()
}

fn sorted(folder: &Path) -> io::Result<Vec<PathBuf>> {
    let paths = fs::read_dir(folder)?.map(|entry| entry.map(|entry| entry.path()));
    let mut paths = paths.collect::<io::Result<Vec<PathBuf>>>()?;
    paths.sort();
    Ok(paths)
}
