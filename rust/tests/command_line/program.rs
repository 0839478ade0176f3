//! The program, run in a folder of its own.

use std::ffi::OsStr;
use std::fs;
use std::io::Write;
use std::path::{Path, PathBuf};
use std::process::{Child, Command, Stdio};
use std::thread;

/// What a run of the program came to.
#[derive(Debug)]
pub struct Outcome {
    /// The exit status.
    pub status: i32,
    /// What was written to standard output.
    pub output: String,
    /// What was written to standard error.
    pub errors: String,
}

impl Outcome {
    /// Asserts that the run is done and said nothing on standard error, and gives its output.
    pub fn done(self) -> String {
        assert_eq!(self.errors, "", "standard error");
        assert_eq!(self.status, 0, "exit status");
        self.output
    }

    /// Asserts that the run ended with a status and wrote nothing to standard output, and gives
    /// the one sentence on standard error, without the program's name.
    pub fn failed(self, status: i32) -> String {
        assert_eq!(self.output, "", "standard output");
        assert_eq!(self.status, status, "exit status: {}", self.errors);
        let sentence = self.errors.strip_prefix("range-filter: ");
        let sentence = sentence.and_then(|sentence| sentence.strip_suffix('\n'));
        let sentence = sentence.expect("a sentence behind the program's name");
        assert!(!sentence.contains('\n'), "one line: {sentence}");
        sentence.to_string()
    }
}

/// An empty folder in which the program is run.
pub struct Folder {
    path: PathBuf,
}

impl Folder {
    /// Makes the folder of a test.
    pub fn new(test: &str) -> Folder {
        let path = Path::new(env!("CARGO_TARGET_TMPDIR")).join(test);
        let _ = fs::remove_dir_all(&path);
        fs::create_dir_all(&path).expect("the folder can be made");
        Folder { path }
    }

    /// Gives the path of a file in the folder.
    pub fn path(&self, name: &str) -> PathBuf {
        self.path.join(name)
    }

    /// Writes a file in the folder.
    pub fn write(&self, name: &str, bytes: impl AsRef<[u8]>) {
        fs::write(self.path(name), bytes).expect("the file can be written");
    }

    /// Reads a file in the folder.
    pub fn read(&self, name: &str) -> Vec<u8> {
        fs::read(self.path(name)).expect("the file can be read")
    }

    /// Gives the names in the folder, sorted.
    pub fn names(&self) -> Vec<String> {
        let entries = fs::read_dir(&self.path).expect("the folder can be read");
        let name = |entry: fs::DirEntry| entry.file_name().to_string_lossy().into_owned();
        let mut names: Vec<String> = entries.flatten().map(name).collect();
        names.sort();
        names
    }

    /// Builds an image from keys.
    pub fn build(&self, image: &str, keys: &str, options: &[&str]) {
        self.write("keys", keys);
        let arguments = [&["build", "keys", "-o", image], options].concat();
        self.run(&arguments).done();
    }

    /// Runs the program with nothing on standard input.
    pub fn run<S: AsRef<OsStr>>(&self, arguments: &[S]) -> Outcome {
        self.run_with_input(arguments, b"")
    }

    /// Runs the program with some standard input.
    pub fn run_with_input<S: AsRef<OsStr>>(&self, arguments: &[S], input: &[u8]) -> Outcome {
        let mut child = self.start(arguments);
        let mut stdin = child.stdin.take().expect("standard input is a pipe");
        let output = thread::scope(|scope| {
            // The program may end before it has read all.
            scope.spawn(move || stdin.write_all(input));
            child.wait_with_output().expect("the program ends")
        });
        Outcome {
            status: output.status.code().expect("the program ends by itself"),
            output: String::from_utf8(output.stdout).expect("the output is text"),
            errors: String::from_utf8(output.stderr).expect("the errors are text"),
        }
    }

    /// Starts the program with pipes to it and from it.
    pub fn start<S: AsRef<OsStr>>(&self, arguments: &[S]) -> Child {
        Command::new(env!("CARGO_BIN_EXE_range-filter"))
            .args(arguments)
            .current_dir(&self.path)
            .stdin(Stdio::piped())
            .stdout(Stdio::piped())
            .stderr(Stdio::piped())
            .spawn()
            .expect("the program starts")
    }
}

/// Removes the folder, unless the test has failed and its files may tell why.
impl Drop for Folder {
    fn drop(&mut self) {
        if !thread::panicking() {
            let _ = fs::remove_dir_all(&self.path);
        }
    }
}

/// Gives a text of so many keys, one a line, ascending.
pub fn many_keys(number: usize) -> String {
    (0..number).map(|key| format!("key{key:06}\n")).collect()
}
