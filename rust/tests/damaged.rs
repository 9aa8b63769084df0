//! Damaged files: each has the same error from each call, and no call panics.

use tickmarl_hdt::{rewrite, verify, Error, Graph, Pattern, BLOCK_SIZE};

const THREE: &[u8] = include_bytes!("../../samples/three.hdt");

/// Calls everything on bytes that may be a file, and returns whether they are one.
fn is_valid(bytes: &[u8]) -> bool {
    let verdict = verify(bytes);
    let rewritten = rewrite(bytes, BLOCK_SIZE);
    match Graph::open(bytes) {
        Ok(graph) => {
            assert_eq!(verdict, Ok(graph.counts()));
            assert_eq!(graph.find(Pattern::any()).count() as u64, graph.len());
            assert!(rewritten.is_ok());
            true
        }
        Err(error) => {
            assert!(matches!(error, Error::File(_)));
            assert_eq!(verdict, Err(error));
            assert_eq!(rewritten.unwrap_err(), error);
            false
        }
    }
}

#[test]
fn files_that_are_cut() {
    assert!(is_valid(THREE));
    for end in 0..THREE.len() {
        assert!(!is_valid(&THREE[..end]), "{end}");
    }
}

#[test]
fn files_with_a_changed_byte() {
    let mut valid = 0;
    for at in 0..THREE.len() {
        for flip in [1, 0x40, 0x80, 0xFF] {
            let mut bytes = THREE.to_vec();
            bytes[at] ^= flip;
            valid += usize::from(is_valid(&bytes));
        }
    }
    // The header's body is under no CRC, so a change there is accepted.
    let body = Graph::open(THREE).unwrap().header().unwrap().len();
    assert_eq!(valid, 4 * body);
}
