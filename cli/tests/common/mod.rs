//! What the tests share: the examples as records, and the command. Each test program uses a part of it.
#![allow(dead_code)]

use std::fs;
use std::io::Write;
use std::path::{Path, PathBuf};
use std::process::{Command, Output, Stdio};
use std::sync::OnceLock;

/// The repository.
pub fn root() -> PathBuf {
    Path::new(env!("CARGO_MANIFEST_DIR")).join("..")
}

/// A folder of its own for one test.
pub fn folder(name: &str) -> PathBuf {
    let folder = Path::new(env!("CARGO_TARGET_TMPDIR")).join(name);
    let _ = fs::remove_dir_all(&folder);
    fs::create_dir_all(&folder).unwrap();
    folder
}

/// Every example as NAME.rec in a folder, assembled once in each test program.
pub fn examples() -> &'static Path {
    static MADE: OnceLock<PathBuf> = OnceLock::new();
    MADE.get_or_init(|| {
        let made = folder(concat!("examples-of-", env!("CARGO_CRATE_NAME")));
        for text in example_files("txt") {
            let name = text.file_stem().unwrap().to_str().unwrap().to_string();
            fs::write(made.join(name + ".rec"), assemble(&text)).unwrap();
        }
        made
    })
}

/// The files of examples/ with an extension, by name.
pub fn example_files(extension: &str) -> Vec<PathBuf> {
    let entries = fs::read_dir(root().join("examples")).unwrap();
    let mut files: Vec<PathBuf> = entries.map(|e| e.unwrap().path()).collect();
    files.retain(|file| file.extension() == Some(extension.as_ref()));
    files.sort();
    assert!(!files.is_empty());
    files
}

fn assemble(text: &Path) -> Vec<u8> {
    static ASSEMBLER: OnceLock<PathBuf> = OnceLock::new();
    let assembler = ASSEMBLER.get_or_init(|| {
        // Its first run builds it.
        let worked = root().join("examples/worked.txt");
        let built = Command::new(root().join("tools/record")).arg("assemble").arg(worked).output().unwrap();
        assert!(built.status.success(), "{}", String::from_utf8_lossy(&built.stderr));
        root().join("target/record/release/record")
    });
    Command::new(assembler).arg("assemble").arg(text).output().unwrap().stdout
}

pub fn record(name: &str) -> PathBuf {
    examples().join(format!("{name}.rec"))
}

pub fn command<S: AsRef<std::ffi::OsStr>>(words: &[S]) -> Output {
    with_input(words, b"")
}

/// Runs in the repository's folder.
pub fn with_input<S: AsRef<std::ffi::OsStr>>(words: &[S], input: &[u8]) -> Output {
    let mut command = Command::new(env!("CARGO_BIN_EXE_cakirotu"));
    let command = command.current_dir(root()).args(words);
    let command = command.stdin(Stdio::piped()).stdout(Stdio::piped()).stderr(Stdio::piped());
    let mut child = command.spawn().unwrap();
    let mut stdin = child.stdin.take().unwrap();
    let input = input.to_vec();
    let writer = std::thread::spawn(move || {
        // A command that reads no input closes it.
        let _ = stdin.write_all(&input);
    });
    let output = child.wait_with_output().unwrap();
    writer.join().unwrap();
    output
}

/// Standard output, where the status is as wanted.
pub fn printed<S: AsRef<std::ffi::OsStr>>(words: &[S], status: i32) -> Vec<u8> {
    let output = command(words);
    assert_eq!(output.status.code(), Some(status), "{}", String::from_utf8_lossy(&output.stderr));
    output.stdout
}

/// The one line that a refusal prints is `no N`, `: ` and the question; a listing stays as it is.
pub fn as_programs_print(printed: &[u8]) -> Vec<u8> {
    match printed.strip_prefix(b"no ") {
        None => printed.to_vec(),
        Some(rest) => {
            let colon = rest.iter().position(|b| *b == b':').expect("the question in words");
            assert!(rest.len() > colon + 10 && rest.ends_with(b"\n"));
            [b"no ", &rest[..colon], b"\n"].concat()
        }
    }
}
