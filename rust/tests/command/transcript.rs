//! The built program run line by line, and what it says compared with a file.

use std::ffi::OsString;
use std::fs;
use std::path::{Path, PathBuf};
use std::process::Command;

/// A folder for the program's files, and all that was said there.
pub struct Transcript {
    name: &'static str,
    pub folder: PathBuf,
    said: String,
}

/// What one run did.
pub struct Run {
    pub status: i32,
    pub out: String,
    pub err: String,
}

/// The gate stops at a link anywhere in the repository's folder, in target/ too.
impl Drop for Transcript {
    fn drop(&mut self) {
        let _ = fs::remove_file(self.folder.join("link"));
    }
}

impl Transcript {
    pub fn new(name: &'static str) -> Transcript {
        let folder = Path::new(env!("CARGO_TARGET_TMPDIR")).join(format!("command_{name}"));
        let _ = fs::remove_dir_all(&folder);
        fs::create_dir_all(&folder).expect("a folder");
        Transcript { name, folder, said: String::new() }
    }

    pub fn path(&self, file: &str) -> PathBuf {
        self.folder.join(file)
    }

    pub fn write(&self, file: &str, bytes: &[u8]) {
        fs::write(self.path(file), bytes).expect("a file");
    }

    pub fn read(&self, file: &str) -> Vec<u8> {
        fs::read(self.path(file)).expect("a file")
    }

    /// Runs the program with the words of a line, without a word of it in the transcript.
    pub fn quiet(&self, line: &str) -> Run {
        self.quietly(&line.split_whitespace().map(OsString::from).collect::<Vec<_>>())
    }

    /// The same with words that a line cannot hold. Of every run it is asked that it ends with one of the program's
    /// statuses and without a panic.
    pub fn quietly(&self, words: &[OsString]) -> Run {
        let program = env!("CARGO_BIN_EXE_meanderpeg");
        let output = Command::new(program).args(words).current_dir(&self.folder).output().expect("a run");
        let text = |bytes| String::from_utf8(bytes).expect("UTF-8");
        let run = Run {
            status: output.status.code().expect("an exit status"),
            out: text(output.stdout),
            err: text(output.stderr),
        };
        assert!((0..=4).contains(&run.status) && !run.err.contains("panicked"), "{words:?}: {}", run.err);
        run
    }

    /// Runs the program with the words of a line, and notes all of it.
    pub fn run(&mut self, line: &str) -> Run {
        let run = self.quiet(line);
        self.note(&format!("$ meanderpeg {line}\n{}{}[{}]\n\n", run.out, marked(&run.err), run.status));
        run
    }

    pub fn note(&mut self, text: &str) {
        self.said += text;
    }

    /// Compares all that was said with the file of this transcript.
    pub fn compare(&self) {
        let expected = Path::new(env!("CARGO_MANIFEST_DIR")).join(format!("tests/command/{}.txt", self.name));
        if std::env::var_os("MEANDERPEG_WRITE_EXPECTED").is_some() {
            fs::write(&expected, &self.said).expect("the file of this transcript");
        }
        let wanted = fs::read_to_string(&expected).expect("the file of this transcript");
        for (at, (said, wanted)) in self.said.lines().zip(wanted.lines()).enumerate() {
            assert_eq!(said, wanted, "{}, line {}", expected.display(), at + 1);
        }
        assert_eq!(self.said.len(), wanted.len(), "{}", expected.display());
    }
}

/// Lines of standard error, told apart.
fn marked(err: &str) -> String {
    err.lines().map(|line| format!("! {line}\n")).collect()
}

/// The value on the line of that name.
pub fn value<'o>(out: &'o str, name: &str) -> &'o str {
    let line = out.lines().find_map(|line| line.strip_prefix(&format!("{name:<20}")));
    line.unwrap_or_else(|| panic!("{name} in {out}"))
}

/// The stores that a run showed.
pub fn stores_of(out: &str) -> Vec<(u32, u32)> {
    let number = |word: Option<&str>| u32::from_str_radix(&word.expect("a word")[2..], 16).expect("a number");
    let lines = out.lines().filter(|line| line.starts_with("store "));
    let words = lines.map(|line| line.split_whitespace().skip(2));
    words.map(|mut words| (number(words.next()), number(words.next()))).collect()
}
