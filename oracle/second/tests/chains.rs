//! Document 02 §13: the list of chains, and the generator's answers.

use cases::{pieces, written, Start};
use second::chains;

fn next(pieces: &[u8]) -> String {
    second::next(&Start { id: 1, size: 15, pieces: pieces.to_vec() })
}

/// The lengths, and the first and the last chain.
#[test]
fn the_list() {
    let mut counts = [0; 16];
    chains().iter().for_each(|chain| counts[chain.len()] += 1);
    assert_eq!(counts, [0, 0, 0, 2, 0, 4, 4, 4, 6, 28, 16, 24, 56, 116, 96, 280]);
    assert_eq!(chains().len(), 636);
    assert_eq!(written(&chains()[0]), "sun is up");
    assert_eq!(written(&chains()[635]), "time in sunset .. sunset and time in sunset .. sunset and sun is down");
    assert!(chains().windows(2).all(|two| (two[0].len(), &two[0]) < (two[1].len(), &two[1])));
}

#[test]
fn what_stands_in_it() {
    let listed = |text: &str| chains().contains(&pieces(text));
    for chain in ["lamp ( 0 ) . level == 64", "lamp ( 63 ) . level == - 64", "lamp ( 0 ) . level == lamp ( 0 ) . level + 0"] {
        assert!(listed(chain), "{chain}");
    }
    for other in ["lamp ( 64 ) is on", "sun is on", "sun is up and", "time in sunrise .. sunset + 0", "lamp ( 0 ) . level == + - 0"] {
        assert!(!listed(other), "{other}");
    }
}

#[test]
fn the_answers() {
    assert_eq!(next(&[]), "case 1\nbuffer kept\nchain 1 3 7\n");
    assert_eq!(next(&[1, 3, 8]), "case 1\nbuffer kept\nchain 2 4 9 19 9\n");
    assert_eq!(next(&chains()[635]), "case 1\nbuffer kept\nnone\n");
    for start in [&[23][..], &[1, 3], &[1, 3, 7, 12], &[0; 16], &[1, 3, 255]] {
        assert_eq!(next(start), "case 1\nbuffer kept\nrefused 67 0 0 0\n");
    }
}
