//! `range-filter info`.

use crate::examples::{image_a_dense, in_version_2, with_slots, IMAGE_A, SLOTS_VAN};
use crate::program::Folder;

#[test]
fn list_a_is_shown_record_by_record() {
    let folder = Folder::new("info_a");
    folder.write("image", IMAGE_A);
    let expected = "\
bytes           110
bits a key      220.0
version         1
dense levels    0
real bits       0
hash bits       0
leaves          4 (1 exact, 3 open)
levels          3
nodes           3 (0 dense, 3 sparse)
sparse entries  6

record  what it holds                                                  bytes
HD      header: version, settings and counts                              22
DL      D-Labels: the labels of dense nodes, 256 bits each                 6
DC      D-HasChild: which of them lead to nodes                            6
DP      D-IsPrefixKey: which dense nodes are exact leaves                  6
SL      S-Labels: the labels of sparse nodes, a byte each                 12
SC      S-HasChild: which of them lead to nodes                            7
SB      S-LOUDS: where the entries of a sparse node start                  7
SV      slots of the leaves: hash bits, then real bits                     6
RL      ranks of DL                                                        6
RC      ranks of DC                                                        6
RP      ranks of DP                                                        6
RS      ranks of SC                                                       10
TS      select samples of SB                                              10
        total                                                            110
";
    assert_eq!(folder.run(&["info", "image"]).done(), expected);
}

#[test]
fn version_2_has_its_level_starts() {
    let folder = Folder::new("info_version_2");
    folder.write("image", in_version_2(IMAGE_A));
    let output = folder.run(&["info", "image"]).done();
    let lines: Vec<&str> = output.lines().collect();
    assert_eq!(lines[0], "bytes           128");
    assert_eq!(lines[1], "bits a key      256.0");
    assert_eq!(lines[2], "version         2");
    assert_eq!(lines[7], "levels          3");
    let expected = [
        "TS      select samples of SB                                              10",
        "LV      level starts: the first node of each level                        18",
        "        total                                                            128",
    ];
    assert_eq!(lines[lines.len() - 3..], expected);
}

#[test]
fn dense_nodes_are_counted() {
    let folder = Folder::new("info_dense");
    folder.write("image", image_a_dense());
    let output = folder.run(&["info", "image"]).done();
    let lines: Vec<&str> = output.lines().collect();
    assert_eq!(lines[0], "bytes           209");
    assert_eq!(lines[1], "bits a key      418.0");
    assert_eq!(lines[3], "dense levels    1");
    assert_eq!(lines[7], "levels          3");
    assert_eq!(lines[8], "nodes           3 (1 dense, 2 sparse)");
    assert_eq!(lines[9], "sparse entries  4");
    let bytes = |mark: &str| {
        let mut lines = lines.iter().filter(|line| line.starts_with(mark));
        lines
            .next()
            .and_then(|line| line.split(' ').next_back())
            .unwrap_or("")
    };
    let marks = [
        "DL", "DC", "DP", "SL", "SC", "SB", "SV", "RL", "RC", "RP", "RS", "TS",
    ];
    let expected = [
        "38", "38", "7", "10", "7", "7", "6", "22", "22", "10", "10", "10",
    ];
    assert_eq!(marks.map(bytes), expected);
}

#[test]
fn slots_are_hash_bits_and_real_bits() {
    let folder = Folder::new("info_slots");
    folder.write("image", with_slots(8, 4, SLOTS_VAN));
    let output = folder.run(&["info", "image"]).done();
    let lines: Vec<&str> = output.lines().collect();
    assert_eq!(lines[0], "bytes           116");
    assert_eq!(lines[4], "real bits       8");
    assert_eq!(lines[5], "hash bits       4");
    let slots = "SV      slots of the leaves: hash bits, then real bits                    12";
    assert!(lines.contains(&slots));
}

#[test]
fn the_empty_image_has_no_bits_a_key() {
    let folder = Folder::new("info_empty");
    folder.build("image", "", &[]);
    let output = folder.run(&["info", "image"]).done();
    let lines: Vec<&str> = output.lines().take(10).collect();
    let expected = [
        "bytes           94",
        "bits a key      -",
        "version         1",
        "dense levels    0",
        "real bits       0",
        "hash bits       0",
        "leaves          0 (0 exact, 0 open)",
        "levels          0",
        "nodes           0 (0 dense, 0 sparse)",
        "sparse entries  0",
    ];
    assert_eq!(lines, expected);
}

#[test]
fn a_refused_image_is_told_with_number_and_name() {
    let folder = Folder::new("info_refused");
    folder.write("image", &IMAGE_A[..60]);
    for subcommand in ["info", "leaves", "ask", "picture"] {
        let sentence = folder.run(&[subcommand, "image"]).failed(1);
        assert!(
            sentence.starts_with("image is refused with 11, FRAME_WRONG: "),
            "{sentence}"
        );
    }
}
