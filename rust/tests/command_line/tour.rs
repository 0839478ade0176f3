//! `range-filter tour`.

use std::fs;
use std::path::PathBuf;

use crate::program::Folder;

/// Makes a folder with two small runs and some questions.
fn small_folder(test: &str, questions: &str) -> Folder {
    let folder = Folder::new(test);
    fs::create_dir(folder.path("runs")).unwrap();
    folder.write("runs/a.tsv", "D1\tone\nD12\ttwo\nD2\tthree\nV\tfour\n");
    folder.write("runs/b.tsv", "X\tfive\n");
    folder.write("runs/questions.txt", questions);
    folder
}

/// Gives the folder with the sample runs of the repository.
fn samples() -> PathBuf {
    let root = PathBuf::from(env!("CARGO_MANIFEST_DIR")).join("..");
    root.join("samples")
}

/// Questions to the small runs, and what the tour says.
const QUESTIONS: &str = "\
# Is D1 there?
point D1

# And D2x, which the filter takes for D2?
point D2x

# How many keys from D11 on?
count D11 Z

# Is there a key with E?
stem E
";
const TOUR: &str = "\
2 runs, each with a filter of these settings:
version 1, dense levels 0, real bits 0, hash bits 0.

run                      records   run bytes   filter bytes   bits a key
a                              4          31            110        220.0
b                              1           7            105        840.0
all                            5          38            215

Is D1 there?
  asked         point D1
  read          a
  passed over   b
  found         1 record
                D1  one

And D2x, which the filter takes for D2?
  asked         point D2x
  read in vain  a
  passed over   b
  found         0 records

How many keys from D11 on?
  asked         count D11 Z
  read          a, b
  found         4 records (by the filters at most 4)
                D12  two
                D2  three
                V  four
                and 1 more

Is there a key with E?
  asked         stem E
  passed over   a, b
  found         0 records

4 of 8 reads were saved: 4 runs read, 1 in vain.
All 4 answers are those of a full reading of all runs.
No stored key was denied: all 5 were put to their filters.
";

#[test]
fn a_small_tour_is_told_in_full() {
    let folder = small_folder("tour_small", QUESTIONS);
    let arguments = ["tour", "runs", "--real-bits", "0"];
    assert_eq!(folder.run(&arguments).done(), TOUR);
}

#[test]
fn a_tour_in_version_2_differs_in_the_sizes_alone() {
    let folder = small_folder("tour_version_2", QUESTIONS);
    let arguments = ["tour", "runs", "--real-bits", "0", "--image-version", "2"];
    // The keys of a have three levels of nodes, that of b has one: 6 bytes, and 4 for each level.
    let expected = TOUR
        .replace("version 1,", "version 2,")
        .replace("110        220.0", "128        256.0")
        .replace("105        840.0", "115        920.0")
        .replace("38            215", "38            243");
    assert_eq!(folder.run(&arguments).done(), expected);
}

#[test]
fn hash_bits_save_the_read_of_a_point() {
    let folder = small_folder("tour_hash", QUESTIONS);
    let arguments = ["tour", "runs", "--real-bits", "0", "--hash-bits", "8"];
    // The keys of a have four slots of a byte, that of b has one. D2x has another hash than D2.
    let expected = TOUR
        .replace("hash bits 0.", "hash bits 8.")
        .replace("110        220.0", "114        228.0")
        .replace("105        840.0", "106        848.0")
        .replace("38            215", "38            220")
        .replace("read in vain  a\n  passed over   b", "passed over   a, b")
        .replace("4 of 8 reads", "5 of 8 reads")
        .replace("4 runs read, 1 in vain", "3 runs read, 0 in vain");
    assert_eq!(folder.run(&arguments).done(), expected);
}

#[test]
fn the_samples_are_toured() {
    let folder = Folder::new("tour_samples");
    let samples = samples();
    let output = folder.run(&["tour".as_ref(), samples.as_os_str()]).done();
    let (mut runs, mut records) = (0, 0);
    for entry in fs::read_dir(&samples).unwrap().flatten() {
        if entry
            .path()
            .extension()
            .is_some_and(|ending| ending == "tsv")
        {
            runs += 1;
            records += fs::read_to_string(entry.path()).unwrap().lines().count();
        }
    }
    let questions = fs::read_to_string(samples.join("questions.txt")).unwrap();
    let asked = |line: &&str| !line.is_empty() && !line.starts_with('#');
    let questions = questions.lines().filter(asked).count();
    let tail: Vec<&str> = output.lines().rev().take(3).collect();
    let (thousands, rest) = (records / 1_000, records % 1_000);
    assert_eq!(
        tail[0],
        format!("No stored key was denied: all {thousands},{rest:03} were put to their filters.")
    );
    assert_eq!(
        tail[1],
        format!("All {questions} answers are those of a full reading of all runs.")
    );
    let saved: Vec<&str> = tail[2].split(' ').collect();
    assert_eq!(saved[2], (runs * questions).to_string());
    assert!(saved[0].parse::<usize>().unwrap() * 4 > runs * questions * 3);
    assert!(output.lines().all(|line| line.len() <= 80), "80 columns");
}

#[test]
fn hash_bits_save_reads_of_the_samples() {
    let folder = Folder::new("tour_samples_hash");
    let saved = |bits: &str| {
        let mut arguments = vec!["tour".into(), samples().into_os_string()];
        arguments.extend(["--hash-bits".into(), bits.into()]);
        let output = folder.run(&arguments).done();
        let line = output.lines().rev().nth(2).expect("three lines at least");
        let number = line.split(' ').next().and_then(|word| word.parse().ok());
        let number: usize = number.expect("the number of reads that were saved");
        number
    };
    assert!(saved("8") > saved("0"));
}

#[test]
fn the_folder_is_samples_if_none_is_named() {
    let folder = small_folder("tour_default", "point D1\n");
    fs::rename(folder.path("runs"), folder.path("samples")).unwrap();
    assert_eq!(
        folder.run(&["tour"]).done(),
        folder.run(&["tour", "samples"]).done()
    );
}

#[test]
fn bad_files_are_told_with_the_line() {
    let folder = small_folder("tour_bad", "point D1\nseek D1\n");
    let told = |status| folder.run(&["tour", "runs"]).failed(status);
    assert_eq!(
        told(1),
        "runs/questions.txt, line 2: the tour puts no seeks: take a range"
    );
    folder.write("runs/questions.txt", "range V D1\n");
    // The table of the runs is written before the questions are put.
    let outcome = folder.run(&["tour", "runs"]);
    assert_eq!(outcome.status, 1);
    let expected =
        "range-filter: range V D1: the lower bound is above the upper one: exchange them\n";
    assert_eq!(outcome.errors, expected);
    folder.write("runs/b.tsv", "X five\n");
    assert_eq!(
        told(1),
        "runs/b.tsv, line 1: there is no tab between a key and a value: write one"
    );
    folder.write("runs/b.tsv", "X\tfive\nA\tsix\n");
    assert!(told(1).starts_with("runs/b.tsv: a key is not above the one before it: "));
}

#[test]
fn missing_files_are_told() {
    let folder = Folder::new("tour_missing");
    let told = |status| folder.run(&["tour", "runs"]).failed(status);
    assert!(told(2).starts_with("runs can't be read ("));
    fs::create_dir(folder.path("runs")).unwrap();
    assert_eq!(
        told(2),
        "there is no run in runs: name a folder that has files ending in .tsv"
    );
    folder.write("runs/a.tsv", "X\tfive\n");
    assert!(told(2).starts_with("runs/questions.txt can't be read ("));
}
