//! The built programs and the linked panel, run as a user runs them. What they must answer comes from the second engine.

use second::deck::{block_check, write_deck, BLOCK, LONGEST};
use second::shipped::SHIPPED;
use std::fs::File;
use std::io::{Read, Write};
use std::path::{Path, PathBuf};
use std::process::{Command, Stdio};
use std::sync::LazyLock;
use std::thread;

/// The repository.
pub fn root() -> PathBuf {
    Path::new(env!("CARGO_MANIFEST_DIR")).join("../..").canonicalize().expect("the repository")
}

/// What a program wrote, and the status that it ended with.
#[derive(Debug, PartialEq, Eq)]
pub struct Said {
    pub out: Vec<u8>,
    pub err: String,
    pub status: Option<i32>,
}

impl Said {
    /// Standard output as text.
    pub fn text(&self) -> String {
        String::from_utf8_lossy(&self.out).into_owned()
    }

    /// All went well, and nothing was said on standard error.
    pub fn well(&self) -> bool {
        self.status == Some(0) && self.err.is_empty()
    }
}

/// Runs a command on the bytes as its standard input. It may end before it has read them all.
pub fn run(command: &mut Command, input: &[u8]) -> Said {
    let mut child = command
        .stdin(Stdio::piped())
        .stdout(Stdio::piped())
        .stderr(Stdio::piped())
        .spawn()
        .unwrap_or_else(|error| panic!("{command:?}: {error}"));
    let mut stdin = child.stdin.take().expect("its standard input");
    let bytes = input.to_vec();
    let feeder = thread::spawn(move || drop(stdin.write_all(&bytes)));
    let said = child.wait_with_output().expect("its end");
    feeder.join().expect("the feeder");
    Said { out: said.stdout, err: String::from_utf8_lossy(&said.stderr).into_owned(), status: said.status.code() }
}

/// Proves the programs, where they are not proved from the present files, so that no command has to say so.
static READY: LazyLock<()> = LazyLock::new(|| {
    for name in ["lister", "ship", "board"] {
        let mut command = Command::new(root().join("tools/proved"));
        let said = run(command.arg(root().join("target/bin").join(name)).args(["tools/crate", name]), &[]);
        assert_eq!(said.status, Some(0), "{}", said.err);
    }
});

/// A root command, as `lister`.
pub fn command(name: &str, arguments: &[&str]) -> Command {
    LazyLock::force(&READY);
    let mut command = Command::new(root().join(name));
    command.args(arguments);
    command
}

/// A root command's answer to arguments and standard input.
pub fn said(name: &str, arguments: &[&str], input: &[u8]) -> Said {
    run(&mut command(name, arguments), input)
}

/// What a line says that is typed in a folder, where links to the root commands may stand.
pub fn typed_in(folder: &Path, line: &str) -> Said {
    LazyLock::force(&READY);
    run(Command::new("bash").args(["-c", line]).current_dir(folder), &[])
}

/// A folder of this test's own, empty. It is outside the repository, in which rt ci takes no link and no second crates.txt; .ci/run
/// removes it.
pub fn folder(name: &str) -> PathBuf {
    let root = root();
    let own = root.strip_prefix("/").expect("a path from /");
    let folder = std::env::temp_dir().join("eggpannier-tried").join(own).join(name);
    drop(std::fs::remove_dir_all(&folder));
    std::fs::create_dir_all(&folder).expect("a folder");
    folder
}

/// A file of these bytes, by its path.
pub fn file(folder: &Path, name: &str, bytes: &[u8]) -> String {
    let path = folder.join(name);
    std::fs::write(&path, bytes).expect("a file");
    path.to_string_lossy().into_owned()
}

/// The lesson of a trap: the shipped words, and behind them, from 015 on, a routine that counts in G and returns.
pub fn lesson() -> Vec<u64> {
    [&SHIPPED[..], &[0x0B0812801A6040, 0x01001D00100001]].concat()
}

/// The deck of these words.
pub fn deck_of(words: &[u64]) -> Vec<u8> {
    let mut deck = vec![0; LONGEST];
    let length = write_deck(words, &mut deck).expect("good words");
    deck.truncate(length);
    deck
}

/// The block's check made right again after a change.
pub fn mend(deck: &mut [u8], block: usize) {
    let bytes = &mut deck[BLOCK * block..BLOCK * (block + 1)];
    let groups = std::array::from_fn(|n| u64::from_be_bytes(bytes[8 * n..8 * n + 8].try_into().expect("a group")));
    bytes[504..].copy_from_slice(&block_check(&groups).to_be_bytes());
}

/// Whether the command is on the path.
pub fn there(compiler: &str) -> bool {
    let found = Command::new(compiler).arg("--version").output().is_ok();
    if !found {
        eprintln!("no {compiler} on the path: not tried");
    }
    found
}

/// The command with a file for its standard input.
pub fn run_on(path: impl AsRef<Path>, command: &mut Command) -> Said {
    let input = File::open(path).expect("it opens");
    let mut child = command.stdin(input).stdout(Stdio::piped()).stderr(Stdio::piped()).spawn().expect("it starts");
    finished(&mut child)
}

/// The root command with a standard input that cannot be read: a folder.
pub fn said_of_a_folder(name: &str) -> Said {
    run_on(root(), &mut command(name, &[]))
}

/// The root command with a file for its standard output.
pub fn said_to(out: File, name: &str, arguments: &[&str], input: &[u8]) -> Said {
    let mut child =
        command(name, arguments).stdin(Stdio::piped()).stdout(out).stderr(Stdio::piped()).spawn().expect("it starts");
    drop(child.stdin.take().expect("its standard input").write_all(input));
    finished(&mut child)
}

/// The root command with a standard output that takes nothing.
pub fn said_to_full(name: &str, arguments: &[&str], input: &[u8]) -> Said {
    let full = File::options().write(true).open("/dev/full").expect("/dev/full");
    said_to(full, name, arguments, input)
}

/// Reads of the file BROKEN give no more than a block each, and fail after the first so many.
const READS: &str = "#include <errno.h>
#include <stdlib.h>
#include <sys/stat.h>
#include <sys/syscall.h>
#include <unistd.h>

ssize_t read(int file, void *room, size_t count) {
    static int reads;
    const char *broken = getenv(\"BROKEN\");
    struct stat this, that;
    if (!broken || fstat(file, &this) || stat(broken, &that) || this.st_dev != that.st_dev || this.st_ino != that.st_ino)
        return syscall(SYS_read, file, room, count);
    if (reads++ >= atoi(getenv(\"READS\"))) {
        errno = EIO;
        return -1;
    }
    return syscall(SYS_read, file, room, count < 512 ? count : 512);
}
";

/// The same reads as a library in the folder, where it can be built and a program runs with it.
pub fn failing_reads(folder: &Path) -> Option<PathBuf> {
    if std::env::consts::ARCH != "x86_64" || !there("gcc") {
        return None;
    }
    let (source, library) = (file(folder, "reads.c", READS.as_bytes()), folder.join("reads.so"));
    let said = run(
        Command::new("gcc")
            .args(["-Wall", "-Werror", "-D_GNU_SOURCE", "-shared", "-fPIC", &source, "-o"])
            .arg(&library),
        &[],
    );
    assert!(said.well(), "{}", said.err);
    Some(library)
}

/// The command reads this file so often, and then no more.
pub fn breaking<'a>(command: &'a mut Command, library: &Path, path: &str, reads: u32) -> &'a mut Command {
    command.env("LD_PRELOAD", library).env("BROKEN", path).env("READS", reads.to_string())
}

fn finished(child: &mut std::process::Child) -> Said {
    let (mut out, mut err) = (Vec::new(), String::new());
    if let Some(pipe) = &mut child.stdout {
        pipe.read_to_end(&mut out).expect("its output");
    }
    child.stderr.take().expect("its errors").read_to_string(&mut err).expect("its errors");
    Said { out, err, status: child.wait().expect("its end").code() }
}
