//! `range-filter picture`.

use crate::examples::{image_a_dense, in_version_2, with_slots, IMAGE_A, IMAGE_VAN, SLOTS_VAN};
use crate::program::{many_keys, Folder};

/// Draws an image.
fn picture(test: &str, image: &[u8]) -> String {
    let folder = Folder::new(test);
    folder.write("trie.img", image);
    let picture = folder.run(&["picture", "trie.img"]).done();
    assert_well_formed(&picture);
    picture
}

/// Asserts that elements are closed in the order in which they were opened.
fn assert_well_formed(picture: &str) {
    let mut open = Vec::new();
    for part in picture.split('<').skip(1) {
        let (tag, words) = part.split_once('>').expect("a tag ends");
        let name = tag.split(' ').next().unwrap_or_default();
        if let Some(closed) = name.strip_prefix('/') {
            assert_eq!(open.pop(), Some(closed));
        } else if !tag.ends_with('/') {
            open.push(name);
        }
        let entity = words.split('&').skip(1).all(|rest| rest.contains(';'));
        assert!(!words.contains('>') && entity, "{words}");
    }
    assert_eq!(open, [""; 0]);
}

/// Gives the texts of the elements of a class, in their order.
fn texts<'a>(picture: &'a str, class: &str) -> Vec<&'a str> {
    let start = format!("<text class=\"{class}\" ");
    let lines = picture.lines().filter(|line| line.starts_with(&start));
    let inner = lines.map(|line| line.split(['<', '>']).nth(2));
    inner.flatten().collect()
}

/// Counts the lines that draw an element of a class.
fn count(picture: &str, element: &str, class: &str) -> usize {
    let start = format!("<{element} class=\"{class}\" ");
    picture
        .lines()
        .filter(|line| line.starts_with(&start))
        .count()
}

#[test]
fn list_a_has_its_labels_nodes_and_leaves() {
    let picture = picture("picture_a", IMAGE_A);
    assert!(picture.starts_with("<svg xmlns=\"http://www.w3.org/2000/svg\" "));
    assert!(picture.contains(">The trie of trie.img</title>\n"));
    let words = "Levels: 3, of which dense: 0. \
                 Leaves by place: 0 exact D1; 1 open D12; 2 open D2; 3 open V.";
    assert!(picture.contains(&format!(">{words}</desc>\n")));
    assert_eq!(texts(&picture, "label"), ["D", "V", "1", "2", "2"]);
    // The last of each sign explains it: the root and D are nodes, D1 is exact, the others open.
    assert_eq!(count(&picture, "circle", "node"), 2 + 1);
    assert_eq!(count(&picture, "circle", "exact"), 1 + 1);
    assert_eq!(count(&picture, "rect", "node"), 1);
    assert_eq!(count(&picture, "path", "open"), 3 + 1);
    assert_eq!(count(&picture, "rect", "band"), 0);
}

#[test]
fn versions_have_one_picture() {
    let first = picture("picture_version_1", IMAGE_A);
    assert_eq!(picture("picture_version_2", &in_version_2(IMAGE_A)), first);
}

#[test]
fn dense_levels_have_a_band_and_squares() {
    let picture = picture("picture_dense", &image_a_dense());
    assert_eq!(count(&picture, "rect", "band"), 1);
    assert_eq!(count(&picture, "rect", "node"), 1 + 1);
    assert_eq!(count(&picture, "circle", "node"), 1 + 1);
    assert!(picture.contains("Levels: 3, of which dense: 1."));
}

#[test]
fn suffixes_stand_at_their_leaves() {
    let picture = picture("picture_van", IMAGE_VAN);
    let cells = texts(&picture, "cell");
    assert_eq!(cells[..3], ["exact", "D1", "-"]);
    assert_eq!(cells[9..], ["open", "V", "01000001"]);
    assert!(picture.contains("3 open V with suffix 01000001."));
}

#[test]
fn suffixes_begin_with_hash_bits() {
    let picture = picture("picture_hash", &with_slots(8, 4, SLOTS_VAN));
    let cells = texts(&picture, "cell");
    assert_eq!(cells[..3], ["exact", "D1", "-"]);
    assert_eq!(cells[9..], ["open", "V", "010001000001"]);
    assert!(picture.contains("3 open V with suffix 010001000001."));
}

#[test]
fn long_suffixes_widen_the_picture() {
    let folder = Folder::new("picture_wide");
    let width = |bits: &str| {
        // Levels enough that the list of leaves, and not the line of signs, gives the width.
        let keys = "k".repeat(20) + "\n" + &"k".repeat(21) + "\n";
        folder.build("image", &keys, &["--real-bits", bits, "--hash-bits", bits]);
        let picture = folder.run(&["picture", "image"]).done();
        let (_, behind) = picture.split_once("width=\"").expect("a width");
        behind
            .split('"')
            .next()
            .and_then(|width| width.parse().ok())
    };
    let (narrow, wide): (Option<usize>, Option<usize>) = (width("8"), width("16"));
    assert_eq!(narrow.map(|narrow| narrow + 8 * 16), wide);
}

#[test]
fn both_looks_are_there() {
    let picture = picture("picture_looks", IMAGE_A);
    assert!(picture.contains("@media (prefers-color-scheme: dark)"));
}

#[test]
fn labels_are_characters_or_hexadecimal_digits() {
    let folder = Folder::new("picture_labels");
    folder.build("<&>.img", "\\x00\n\\x20\n&\n<\n>\nz\n\\xFF\n", &[]);
    let picture = folder.run(&["picture", "<&>.img"]).done();
    assert_well_formed(&picture);
    let labels = ["00", "20", "&amp;", "&lt;", "&gt;", "z", "FF"];
    assert_eq!(texts(&picture, "label"), labels);
    assert!(picture.contains(">The trie of &lt;&amp;&gt;.img</title>\n"));
}

#[test]
fn an_empty_image_is_drawn() {
    let folder = Folder::new("picture_empty");
    folder.build("image", "", &[]);
    let picture = folder.run(&["picture", "image"]).done();
    assert_well_formed(&picture);
    assert!(picture.contains("An empty image has no nodes."));
}

#[test]
fn at_most_200_leaves_are_drawn() {
    let folder = Folder::new("picture_many");
    folder.build("image", &many_keys(200), &[]);
    let picture = folder.run(&["picture", "image"]).done();
    assert_eq!(count(&picture, "path", "open"), 200 + 1);
    folder.build("image", &many_keys(201), &[]);
    let sentence = "the image has 201 leaves, and a picture shows at most 200: \
                    `range-filter leaves` writes them as lines";
    assert_eq!(folder.run(&["picture", "image"]).failed(1), sentence);
}
