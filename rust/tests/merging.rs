//! Merging graphs: the file, its errors, and the graphs afterwards.

use std::fs;
use std::path::{Path, PathBuf};
use std::process;
use std::thread;

use tickmarl_hdt::{
    build, build_path, merge, merge_apart, merge_paths, rewrite, verify_tight, Bytes, Cause, Error, FileReason, Graph,
    PathError, Pattern, BLOCK_SIZE,
};

const BASE: &str = "http://a/";
const THREE: &[u8] = include_bytes!("../../samples/three.hdt");
const THREE_TEXT: &[u8] = include_bytes!("../../samples/three.nt");
const NEW_TEXT: &[u8] = b"<u:b> <u:p> _:x .\n_:x <u:p> \"y\"@en .\n<u:a> <u:p> <u:b> .\n";

fn built(text: &[u8], block_size: u16) -> Bytes {
    build(text, BASE, block_size).unwrap().0
}

/// A folder for a test, which is removed when this is dropped.
struct Folder(PathBuf);

impl Folder {
    fn new(name: &str) -> Folder {
        let path = Path::new(env!("CARGO_TARGET_TMPDIR")).join(format!("{name}-{}", process::id()));
        fs::create_dir(&path).unwrap();
        Folder(path)
    }

    /// The path of a file that has these bytes.
    fn file(&self, name: &str, bytes: &[u8]) -> PathBuf {
        let path = self.0.join(name);
        fs::write(&path, bytes).unwrap();
        path
    }

    /// How many names are in the folder.
    fn len(&self) -> usize {
        fs::read_dir(&self.0).unwrap().count()
    }
}

impl Drop for Folder {
    fn drop(&mut self) {
        fs::remove_dir_all(&self.0).unwrap();
    }
}

#[test]
fn merging_is_building_the_texts_together() {
    let both = [THREE_TEXT, NEW_TEXT].concat();
    let new = built(NEW_TEXT, 1);
    let (old, new) = (Graph::open(THREE).unwrap(), Graph::open(&new).unwrap());
    for block_size in [1, BLOCK_SIZE, u16::MAX] {
        let wanted = build(&both, BASE, block_size).unwrap();
        for graphs in [vec![&old, &new], vec![&new, &old], vec![&old, &new, &old, &old]] {
            let (file, counts) = merge(graphs, BASE, block_size).unwrap();
            assert_eq!((&file[..], counts), (&wanted.0[..], wanted.1));
            assert_eq!(verify_tight(&file), Ok(counts));
        }
    }
    assert_eq!(merge([&old], BASE, 3).unwrap().0[..], rewrite(THREE, 3).unwrap().0[..]);
    assert_ne!(merge([&old], "u:b", 3).unwrap().0[..], rewrite(THREE, 3).unwrap().0[..]);
    assert_eq!((old.len(), new.len()), (3, 3));
}

#[test]
fn blank_nodes_are_kept_apart() {
    let text = |prefix: &str| format!("_:{prefix}b <u:p> _:{prefix}c .\n<u:a> <u:p> \"_:b\" .\n");
    let one = built(text("").as_bytes(), 1);
    let graph = Graph::open(&one).unwrap();
    for count in [1, 2, 12] {
        let wanted: String = (0..count).map(|number| text(&format!("f{number}_"))).collect();
        let (file, counts) = merge_apart(vec![&graph; count], BASE, BLOCK_SIZE).unwrap();
        assert_eq!((&file[..], counts.triples), (&built(wanted.as_bytes(), BLOCK_SIZE)[..], 1 + count as u64));
        assert_eq!(merge(vec![&graph; count], BASE, BLOCK_SIZE).unwrap().1.triples, 2);
    }
    assert_eq!(merge_apart([], BASE, BLOCK_SIZE).unwrap_err(), Error::NoTriples);
    assert_eq!(merge_apart([&graph], BASE, 0).unwrap_err(), Error::BadOptions);
}

#[test]
fn merge_has_errors() {
    let graph = Graph::open(THREE).unwrap();
    assert_eq!(merge([], BASE, BLOCK_SIZE).unwrap_err(), Error::NoTriples);
    assert_eq!(merge([&graph], BASE, 0).unwrap_err(), Error::BadOptions);
    assert_eq!(merge([&graph], "relative", BLOCK_SIZE).unwrap_err(), Error::BadOptions);
    assert_eq!(graph.find(Pattern::any()).count(), 3);
}

#[test]
fn many_graphs_are_merged_at_the_same_time() {
    let files: Vec<Bytes> =
        (0..300).map(|n| built(format!("<u:{n}> <u:p> <u:{}> .\n", n + 1).as_bytes(), BLOCK_SIZE)).collect();
    let text: String = (0..300).map(|n| format!("<u:{n}> <u:p> <u:{}> .\n", n + 1)).collect();
    let graphs: Vec<Graph<'static>> = files.into_iter().map(|file| Graph::from_bytes(file).unwrap()).collect();
    let wanted = built(text.as_bytes(), BLOCK_SIZE);
    thread::scope(|scope| {
        for _ in 0..4 {
            scope.spawn(|| assert_eq!(merge(&graphs, BASE, BLOCK_SIZE).unwrap().0[..], wanted[..]));
        }
    });
}

#[test]
fn merge_paths_replaces_a_file_that_it_reads() {
    let folder = Folder::new("merge");
    let (old, new) = (folder.file("old.hdt", THREE), folder.file("new.hdt", &built(NEW_TEXT, 2)));
    let link = folder.0.join("link.hdt");
    fs::hard_link(&old, &link).unwrap();
    let counts = merge_paths([&old, &new], &old, BASE, BLOCK_SIZE).unwrap();
    assert_eq!(fs::read(&link).unwrap(), THREE); // (another file has the name)
    let text = folder.file("both.nt", &[THREE_TEXT, NEW_TEXT].concat());
    assert_eq!(build_path(text, folder.0.join("both.hdt"), BASE, BLOCK_SIZE).unwrap(), counts);
    assert_eq!(fs::read(&old).unwrap(), fs::read(folder.0.join("both.hdt")).unwrap());
    assert_eq!(folder.len(), 5);
}

/// The path of an error, and its cause, which is one of the library.
fn of_hdt(error: PathError) -> (PathBuf, Error) {
    let Cause::Hdt(cause) = error.cause else { panic!("{error}") };
    (error.path, cause)
}

#[test]
fn merge_paths_has_errors_with_the_path() {
    let folder = Folder::new("merge_errors");
    let (old, cut) = (folder.file("old.hdt", THREE), folder.file("cut.hdt", &THREE[..100]));
    let out = folder.file("out.hdt", b"unchanged");
    let (path, error) = of_hdt(merge_paths([&old, &cut], &out, BASE, BLOCK_SIZE).unwrap_err());
    let Error::File(fault) = error else { panic!("{error}") };
    assert_eq!((path, fault.reason), (cut, FileReason::Truncated));
    let none: [&Path; 0] = [];
    assert_eq!(of_hdt(merge_paths(none, &out, BASE, BLOCK_SIZE).unwrap_err()), (out.clone(), Error::NoTriples));
    assert_eq!(of_hdt(merge_paths([&old], &out, BASE, 0).unwrap_err()), (out.clone(), Error::BadOptions));
    let missing = folder.0.join("missing.hdt");
    let error = merge_paths([&old, &missing], &out, BASE, BLOCK_SIZE).unwrap_err();
    assert!(matches!(error.cause, Cause::Io(_)) && error.path == missing);
    let error = merge_paths([&old], missing.join("out.hdt"), BASE, BLOCK_SIZE).unwrap_err();
    assert!(matches!(error.cause, Cause::Io(_)) && error.path == missing.join("out.hdt"));
    assert_eq!((fs::read(&out).unwrap(), folder.len()), (b"unchanged".to_vec(), 3));
}
