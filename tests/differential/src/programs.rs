//! The programs, each run as a process of its own.

use std::ffi::OsStr;
use std::fs;
use std::io::{ErrorKind, Write};
use std::os::unix::ffi::OsStrExt;
use std::path::{Path, PathBuf};
use std::process::{Command, Output, Stdio};
use std::sync::atomic::{AtomicUsize, Ordering};

/// A program that `rt run` has linked in its crate, or `rt ci` in all.
pub struct Program(PathBuf);

impl Program {
    pub fn named(name: &str) -> Program {
        let crates = Path::new(env!("CARGO_MANIFEST_DIR")).join("../../crates");
        let path = crates.join(name).join("out").join(name);
        assert!(
            path.exists(),
            "run `rt run` in crates/{name} first: no {}",
            path.display()
        );
        Program(path)
    }

    /// What it prints for this standard input.
    pub fn printed_for(&self, stdin: &[u8]) -> Vec<u8> {
        self.printed_given(&[], stdin)
    }

    /// What it prints for these arguments and this standard input.
    pub fn printed_given(&self, arguments: &[&[u8]], stdin: &[u8]) -> Vec<u8> {
        let mut process = self
            .command()
            .args(arguments.iter().map(|argument| OsStr::from_bytes(argument)))
            .stdin(Stdio::piped())
            .spawn()
            .expect("a process");
        let mut pipe = process.stdin.take().expect("a pipe");
        // A program that has all it takes may end before the pipe is empty.
        if let Err(error) = pipe.write_all(stdin) {
            assert_eq!(error.kind(), ErrorKind::BrokenPipe);
        }
        drop(pipe);
        printed(process.wait_with_output().expect("an end"))
    }

    /// What it prints in a folder with these files.
    pub fn printed_with(&self, files: &[(&str, Option<&[u8]>)]) -> Vec<u8> {
        let folder = Folder::with(files);
        let mut command = self.command();
        command.stdin(Stdio::null()).current_dir(&folder.0);
        printed(command.output().expect("a process"))
    }

    fn command(&self) -> Command {
        let mut command = Command::new(&self.0);
        command.stdout(Stdio::piped()).stderr(Stdio::piped());
        command
    }
}

/// The output of a program that ends with status 0 and complains of nothing.
fn printed(output: Output) -> Vec<u8> {
    assert!(output.status.success(), "{output:?}");
    assert!(output.stderr.is_empty(), "{output:?}");
    output.stdout
}

/// A folder of its own, gone when dropped.
struct Folder(PathBuf);

impl Folder {
    fn with(files: &[(&str, Option<&[u8]>)]) -> Folder {
        static FOLDERS: AtomicUsize = AtomicUsize::new(0);
        let number = FOLDERS.fetch_add(1, Ordering::Relaxed);
        let name = format!("splitter-{}-{number}", std::process::id());
        let folder = Folder(std::env::temp_dir().join(name));
        fs::create_dir(&folder.0).expect("a new folder");
        for (name, bytes) in files {
            if let Some(bytes) = bytes {
                fs::write(folder.0.join(name), bytes).expect("a file");
            }
        }
        folder
    }
}

impl Drop for Folder {
    fn drop(&mut self) {
        fs::remove_dir_all(&self.0).expect("the folder goes");
    }
}
