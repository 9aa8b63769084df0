//! Files by their paths: reading them, and making one of another.
#![forbid(unsafe_code)]

use std::fs;
use std::io;
use std::os::unix::fs::MetadataExt;
use std::path::Path;

use crate::error::PathError;
use crate::file::{build, merge, rewrite, Counts};
use crate::graph::Graph;
use crate::replace::replace;

/// Builds a file as [`build`] does, of the N-Triples file at the path `text`, and returns its counts.
///
/// The file at `path` is replaced atomically: a file beside it is written, synced and renamed, and then the folder is
/// synced, if the system can do that. On an error the old file is unchanged, and nothing else is left; a process that is
/// killed leaves `hdt-unfinished-` and 16 digits. The new file has the permissions of the old one, and its group if this
/// process may give it, but no setuid, setgid or sticky bit; what may not be given to the new group is given to nobody. A
/// device or a pipe is written to. Text and file are in memory at once.
///
/// # Errors
///
/// [`PathError`] has the path with the errors of [`build`], of reading the text, or of writing the file, also if both
/// paths are one file.
///
/// ```
/// use tickmarl_hdt::{build_path, Graph, BLOCK_SIZE};
///
/// # fn main() -> Result<(), Box<dyn std::error::Error>> {
/// # let folder = std::env::temp_dir().join(format!("build_path-{}", std::process::id()));
/// # std::fs::create_dir(&folder)?;
/// # let (text, file) = (folder.join("graph.nt"), folder.join("graph.hdt"));
/// std::fs::write(&text, "<u:a> <u:p> <u:b> .\n")?;
/// let counts = build_path(&text, &file, "http://example.org/graph", BLOCK_SIZE)?;
/// assert_eq!(Graph::open_path(&file)?.counts(), counts);
/// # std::fs::remove_dir_all(&folder)?;
/// # Ok(())
/// # }
/// ```
pub fn build_path(
    text: impl AsRef<Path>,
    path: impl AsRef<Path>,
    base: &str,
    block_size: u16,
) -> Result<Counts, PathError> {
    let (text, path) = (text.as_ref(), path.as_ref());
    if are_one(text, path) {
        let error = io::Error::new(io::ErrorKind::InvalidInput, "the text and the file to be built are one file");
        return Err(PathError::new(path, error));
    }
    let (file, counts) = build(&read(text)?, base, block_size).map_err(|error| PathError::new(text, error))?;
    replace(path, &file).map_err(|error| PathError::new(path, error))?;
    Ok(counts)
}

/// Merges the files at these paths, as [`merge`] does, and returns the counts of the merged file.
///
/// The file at `path` is replaced atomically, as by [`build_path`]; it may be one of the files. All of them are in memory
/// at once, with their indexes.
///
/// # Errors
///
/// [`PathError`] has the path with the error of reading or opening a file, or of writing the merged one; the errors of
/// [`merge`] have the path of that.
///
/// ```
/// use tickmarl_hdt::{build_path, merge_paths, BLOCK_SIZE};
///
/// # fn main() -> Result<(), Box<dyn std::error::Error>> {
/// # let folder = std::env::temp_dir().join(format!("merge_paths-{}", std::process::id()));
/// # std::fs::create_dir(&folder)?;
/// # let [text, old, new] = ["new.nt", "old.hdt", "new.hdt"].map(|name| folder.join(name));
/// # std::fs::write(&text, "<u:a> <u:p> <u:b> .\n")?;
/// # build_path(&text, &old, "http://example.org/graph", BLOCK_SIZE)?;
/// std::fs::write(&text, "<u:b> <u:p> <u:c> .\n")?;
/// build_path(&text, &new, "http://example.org/graph", BLOCK_SIZE)?;
/// let counts = merge_paths([&old, &new], &old, "http://example.org/graph", BLOCK_SIZE)?;
/// assert_eq!(counts.triples, 2);
/// # std::fs::remove_dir_all(&folder)?;
/// # Ok(())
/// # }
/// ```
pub fn merge_paths(
    files: impl IntoIterator<Item = impl AsRef<Path>>,
    path: impl AsRef<Path>,
    base: &str,
    block_size: u16,
) -> Result<Counts, PathError> {
    let path = path.as_ref();
    let graphs = files.into_iter().map(Graph::open_path).collect::<Result<Vec<_>, _>>()?;
    let (merged, counts) = merge(&graphs, base, block_size).map_err(|error| PathError::new(path, error))?;
    replace(path, &merged).map_err(|error| PathError::new(path, error))?;
    Ok(counts)
}

/// Rewrites the file at a path as [`rewrite`] does, and returns its counts.
///
/// The file at `path` is replaced atomically, as by [`build_path`]; both paths may be the same.
///
/// # Errors
///
/// [`PathError`] has the path with the errors of [`rewrite`], of reading the one file, or of writing the other one.
pub fn rewrite_path(file: impl AsRef<Path>, path: impl AsRef<Path>, block_size: u16) -> Result<Counts, PathError> {
    let (file, path) = (file.as_ref(), path.as_ref());
    let (rewritten, counts) = rewrite(&read(file)?, block_size).map_err(|error| PathError::new(file, error))?;
    replace(path, &rewritten).map_err(|error| PathError::new(path, error))?;
    Ok(counts)
}

/// The bytes of a file.
pub(crate) fn read(path: &Path) -> Result<Vec<u8>, PathError> {
    fs::read(path).map_err(|error| PathError::new(path, error))
}

/// Whether two paths lead to one regular file.
fn are_one(path: &Path, other: &Path) -> bool {
    let (Ok(there), Ok(here)) = (fs::metadata(path), fs::metadata(other)) else {
        return false;
    };
    there.is_file() && (there.dev(), there.ino()) == (here.dev(), here.ino())
}
