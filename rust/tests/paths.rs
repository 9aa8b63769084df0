//! Files by their paths: opening them, and replacing them.

use std::fs::{self, Permissions};
use std::io::{self, Read};
use std::os::unix::fs::{symlink, FileTypeExt, MetadataExt, PermissionsExt};
use std::path::{Path, PathBuf};
use std::process::{self, Command};
use std::thread;

use tickmarl_hdt::{
    build_path, rewrite_path, verify, Cause, Counts, Error, FileReason, Graph, PathError, Pattern, TextReason,
    BLOCK_SIZE,
};

const BASE: &str = "http://a/";
const THREE: &[u8] = include_bytes!("../../samples/three.hdt");
const THREE_TEXT: &[u8] = include_bytes!("../../samples/three.nt");

/// A folder for a test, which is removed when this is dropped.
struct Folder(PathBuf);

impl Folder {
    fn new(name: &str) -> Folder {
        let path = Path::new(env!("CARGO_TARGET_TMPDIR")).join(format!("{name}-{}", process::id()));
        fs::create_dir(&path).unwrap();
        Folder(path)
    }

    /// The path of a file that has these bytes.
    fn file(&self, name: &str, bytes: &[u8]) -> PathBuf {
        let path = self.0.join(name);
        fs::write(&path, bytes).unwrap();
        path
    }

    /// The names in the folder, in order.
    fn names(&self) -> Vec<String> {
        let mut names: Vec<String> =
            fs::read_dir(&self.0).unwrap().map(|it| it.unwrap().file_name().into_string().unwrap()).collect();
        names.sort();
        names
    }
}

impl Drop for Folder {
    fn drop(&mut self) {
        fs::remove_dir_all(&self.0).unwrap();
    }
}

fn build_three(text: &Path, path: &Path) -> Result<Counts, PathError> {
    build_path(text, path, BASE, BLOCK_SIZE)
}

/// The path of an error, and its cause, which is one of the library.
fn of_hdt(error: PathError) -> (PathBuf, Error) {
    let Cause::Hdt(cause) = error.cause else { panic!("{error}") };
    (error.path, cause)
}

/// The path of an error, and the kind of its cause, which is one of the system.
fn of_io(error: PathError) -> (PathBuf, io::ErrorKind) {
    let Cause::Io(cause) = error.cause else { panic!("{error}") };
    (error.path, cause.kind())
}

#[test]
fn open_path_has_the_file_in_memory() {
    let folder = Folder::new("open");
    let path = folder.file("three.hdt", THREE);
    let graph: Graph<'static> = Graph::open_path(&path).unwrap();
    fs::write(&path, b"overwritten").unwrap();
    let counting = thread::spawn(move || graph.find(Pattern::any()).count());
    assert_eq!(counting.join().unwrap(), 3);
}

#[test]
fn open_path_has_errors_with_the_path() {
    let folder = Folder::new("open_errors");
    let cut = folder.file("cut.hdt", &THREE[..100]);
    let error = Graph::open_path(&cut).unwrap_err();
    assert_eq!(error.to_string(), format!("{}: not a valid HDT file: Truncated at byte 68", cut.display()));
    let (path, Error::File(error)) = of_hdt(error) else { panic!("it is no error of a file") };
    assert_eq!((path, error.reason, error.offset), (cut, FileReason::Truncated, 68));
    let missing = folder.0.join("missing.hdt");
    assert_eq!(of_io(Graph::open_path(&missing).unwrap_err()), (missing, io::ErrorKind::NotFound));
    let error: Box<dyn std::error::Error + Send + Sync> = Graph::open_path(&folder.0).unwrap_err().into();
    assert!(error.to_string().ends_with(": Is a directory (os error 21)"), "{error}");
}

#[test]
fn build_path_makes_and_replaces_a_file() {
    let folder = Folder::new("build");
    let (text, path) = (folder.file("three.nt", THREE_TEXT), folder.0.join("three.hdt"));
    let counts = build_three(&text, &path).unwrap();
    assert_eq!((fs::read(&path).unwrap(), Ok(counts)), (THREE.to_vec(), verify(THREE)));
    let (old, mut opened) = (fs::metadata(&path).unwrap(), fs::File::open(&path).unwrap());
    assert_eq!(build_path(&text, &path, BASE, 1).unwrap(), counts);
    assert_ne!((fs::metadata(&path).unwrap().ino(), fs::read(&path).unwrap()), (old.ino(), THREE.to_vec()));
    let mut read = Vec::new();
    opened.read_to_end(&mut read).unwrap();
    assert_eq!(read, THREE, "who has the old file open reads that");
    assert_eq!(folder.names(), ["three.hdt", "three.nt"]);
}

#[test]
fn rewrite_path_makes_and_replaces_a_file() {
    let folder = Folder::new("rewrite");
    let (text, path, other) = (folder.file("three.nt", THREE_TEXT), folder.0.join("1.hdt"), folder.0.join("16.hdt"));
    build_path(&text, &path, BASE, 1).unwrap();
    assert_eq!(rewrite_path(&path, &other, BLOCK_SIZE).ok(), verify(THREE).ok());
    assert_eq!(rewrite_path(&path, &path, BLOCK_SIZE).ok(), verify(THREE).ok());
    assert_eq!([fs::read(&path).unwrap(), fs::read(&other).unwrap()], [THREE; 2]);
    assert_eq!(folder.names(), ["1.hdt", "16.hdt", "three.nt"]);
}

#[test]
fn permissions_are_kept() {
    let folder = Folder::new("permissions");
    let text = folder.file("three.nt", THREE_TEXT);
    for mode in [0o400, 0o600, 0o640, 0o644, 0o664, 0o755, 0o6711] {
        let path = folder.file("three.hdt", b"old");
        fs::set_permissions(&path, Permissions::from_mode(mode)).unwrap();
        build_three(&text, &path).unwrap();
        assert_eq!(fs::metadata(&path).unwrap().mode() & 0o7777, mode & 0o777);
        rewrite_path(&path, &path, 3).unwrap();
        assert_eq!(fs::metadata(&path).unwrap().mode() & 0o7777, mode & 0o777);
        fs::remove_file(&path).unwrap();
    }
}

#[test]
fn a_link_stays_one() {
    let folder = Folder::new("links");
    let text = folder.file("three.nt", THREE_TEXT);
    fs::create_dir(folder.0.join("inner")).unwrap();
    for (name, leads_to) in [("1", "inner/three.hdt"), ("2", "./1"), ("3", "inner/../2")] {
        symlink(leads_to, folder.0.join(name)).unwrap();
        build_three(&text, &folder.0.join(name)).unwrap();
        assert!(fs::symlink_metadata(folder.0.join(name)).unwrap().is_symlink());
        assert_eq!(fs::read(folder.0.join("inner/three.hdt")).unwrap(), THREE);
        fs::write(folder.0.join("inner/three.hdt"), b"old").unwrap();
    }
    assert_eq!(folder.names(), ["1", "2", "3", "inner", "three.nt"]);
    assert_eq!(fs::read_dir(folder.0.join("inner")).unwrap().count(), 1);
}

#[test]
fn too_many_links_are_an_error() {
    let folder = Folder::new("many_links");
    let text = folder.file("three.nt", THREE_TEXT);
    symlink("0", folder.0.join("0")).unwrap();
    let mut leads_to = "three.hdt".to_owned();
    for number in 1..=60 {
        let name = number.to_string();
        symlink(&leads_to, folder.0.join(&name)).unwrap();
        leads_to = name;
    }
    let names = folder.names();
    for (name, is_there) in [("0", false), ("60", false), ("60", true)] {
        if is_there {
            folder.file("three.hdt", b"old");
        }
        let error = build_three(&text, &folder.0.join(name)).unwrap_err();
        assert!(error.to_string().contains("Too many levels of symbolic links"), "{error}");
    }
    fs::remove_file(folder.0.join("three.hdt")).unwrap();
    assert_eq!(folder.names(), names);
    assert!((0..=60).all(|it| fs::symlink_metadata(folder.0.join(it.to_string())).unwrap().is_symlink()));
}

/// A pipe in place of a device: a wrong body might replace a device of the machine.
#[test]
fn a_pipe_is_read_and_written_to() {
    let folder = Folder::new("pipe");
    let pipe = folder.0.join("pipe");
    assert!(Command::new("mkfifo").arg(&pipe).status().unwrap().success());
    let other_end = thread::spawn({
        let pipe = pipe.clone();
        move || {
            fs::write(&pipe, THREE_TEXT).unwrap();
            fs::read(&pipe).unwrap()
        }
    });
    assert_eq!(build_three(&pipe, &pipe).ok(), verify(THREE).ok());
    assert!(fs::metadata(&pipe).unwrap().file_type().is_fifo());
    assert_eq!((other_end.join().unwrap(), folder.names()), (THREE.to_vec(), vec!["pipe".into()]));
}

#[test]
fn on_an_error_the_old_file_stays() {
    let folder = Folder::new("errors");
    let (text, wrong) = (folder.file("three.nt", THREE_TEXT), folder.file("wrong.nt", b"<u:a> <u:p> <u:b> .\nx\n"));
    let (old, cut) = (folder.file("old.hdt", b"old"), folder.file("cut.hdt", &THREE[..100]));
    let missing = folder.0.join("missing");
    let (path, Error::Text(error)) = of_hdt(build_three(&wrong, &old).unwrap_err()) else {
        panic!("it is no text error")
    };
    assert_eq!((path, error.reason, error.line), (wrong, TextReason::Syntax, 2));
    assert_eq!(of_hdt(build_path(&text, &old, "a", 16).unwrap_err()), (text.clone(), Error::BadOptions));
    assert_eq!(of_hdt(rewrite_path(&old, &old, 0).unwrap_err()).0, old);
    assert!(matches!(of_hdt(rewrite_path(&cut, &old, 16).unwrap_err()), (path, Error::File(_)) if path == cut));
    assert_eq!(of_io(build_three(&missing, &old).unwrap_err()), (missing.clone(), io::ErrorKind::NotFound));
    assert_eq!(of_io(rewrite_path(&missing, &old, 16).unwrap_err()), (missing.clone(), io::ErrorKind::NotFound));
    assert_eq!(fs::read(&old).unwrap(), b"old");
    let within = missing.join("new.hdt");
    assert_eq!(of_io(build_three(&text, &within).unwrap_err()), (within, io::ErrorKind::NotFound));
    assert_eq!(of_io(build_three(&text, &folder.0).unwrap_err()), (folder.0.clone(), io::ErrorKind::IsADirectory));
    assert_eq!(of_io(build_three(&text, Path::new("")).unwrap_err()).1, io::ErrorKind::NotFound);
    assert_eq!(folder.names(), ["cut.hdt", "old.hdt", "three.nt", "wrong.nt"]);
}

#[test]
fn a_text_is_not_replaced_by_its_file() {
    let folder = Folder::new("same");
    let text = folder.file("three.nt", THREE_TEXT);
    symlink("three.nt", folder.0.join("link")).unwrap();
    fs::hard_link(&text, folder.0.join("again")).unwrap();
    for path in [text.clone(), folder.0.join("link"), folder.0.join("again")] {
        let error = build_three(&text, &path).unwrap_err();
        assert_eq!(error.to_string(), format!("{}: the text and the file to be built are one file", path.display()));
    }
    assert_eq!(fs::read(&text).unwrap(), THREE_TEXT);
}

#[test]
fn builds_at_once_leave_a_whole_file() {
    let folder = Folder::new("at_once");
    let (text, path) = (folder.file("three.nt", THREE_TEXT), folder.0.join("three.hdt"));
    thread::scope(|scope| {
        for _ in 0..4 {
            scope.spawn(|| (0..25).for_each(|_| assert_eq!(build_three(&text, &path).ok(), verify(THREE).ok())));
        }
    });
    assert_eq!(
        (fs::read(&path).unwrap(), folder.names()),
        (THREE.to_vec(), vec!["three.hdt".into(), "three.nt".into()])
    );
}
