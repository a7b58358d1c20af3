//! A root command runs what is proved from the present files, and nothing else. A kit that only says what it would prove
//! stands in for the real one, so that each case takes no time.

use programs::{folder, root, run, Said};
use std::fs;
use std::io::{BufRead, BufReader};
use std::os::unix::fs::symlink;
use std::path::{Path, PathBuf};
use std::process::{Command, Stdio};

/// A repository of two crates, with the tools and the lister's root command of this one, and a kit beside it. Its program is a
/// script, which every processor runs as it is.
struct Bench {
    here: PathBuf,
}

/// A child writes it: had this process it open to write, a child that another test forks meanwhile would hold it open too, and until
/// that child runs its own program nothing could run this one.
fn script(path: &Path, text: &str) {
    let said = run(Command::new("sh").args(["-c", "cat >\"$0\" && chmod +x \"$0\""]).arg(path), text.as_bytes());
    assert!(said.well(), "{said:?}");
}

/// Proves in a crate's folder where there is no file `broken`, builds a program that says what the file of the crate below has, and
/// runs it, for a second at most. What it has built of the same files it does not build again.
const KIT: &str = "#!/bin/sh
name=$(basename \"$PWD\")
echo $name $* >>../../calls
echo \"rt: chose --jobs 2 for $name\" >&2
if [ -e ../../broken ]; then echo 'rt: the library deck did not build, so nothing above it was checked' >&2; exit 1; fi
mkdir -p out
if [ \"$(cat out/$name.stamp 2>/dev/null)\" != \"$(cat ../deck/file; cksum <out/$name)\" ]; then
    printf '#!/bin/sh\\necho %s $*\\n' \"$(cat ../deck/file)\" >out/$name
    chmod +x out/$name
    { cat ../deck/file; cksum <out/$name; } >out/$name.stamp
fi
echo \"rt: running out/$name; to give it other input, run that file yourself\" >&2
exec timeout 1 out/$name
";

impl Bench {
    fn new(name: &str) -> Bench {
        let here = folder(name);
        for part in ["kit", "tools", "crates/deck", "crates/lister/src"] {
            fs::create_dir_all(here.join(part)).expect("a folder");
        }
        for tool in ["tools/proved", "tools/program", "tools/crate", "lister"] {
            script(&here.join(tool), &fs::read_to_string(root().join(tool)).expect(tool));
        }
        script(&here.join("tools/x86"), "#!/bin/sh\nexec \"$@\"\n");
        script(&here.join("kit/rt"), KIT);
        let bench = Bench { here };
        bench.write("crates.txt", "deck:\n");
        bench.write("crates/lister/src/main.rt", "");
        bench.write("crates/deck/file", "first");
        bench
    }

    fn write(&self, name: &str, text: &str) {
        fs::write(self.here.join(name), text).expect(name);
    }

    fn remove(&self, name: &str) {
        fs::remove_file(self.here.join(name)).expect(name);
    }

    fn command_at(&self, command: &Path, kit: bool) -> Command {
        let path = std::env::var("PATH").expect("a path");
        let others = path.split(':').filter(|folder| !Path::new(folder).join("rt").exists());
        let mut folders: Vec<String> = others.map(str::to_owned).collect();
        if kit {
            folders.insert(0, self.here.join("kit").to_string_lossy().into_owned());
        }
        let mut command = Command::new(command);
        command.env("PATH", folders.join(":"));
        command
    }

    fn lister_at(&self, command: &Path, kit: bool) -> Said {
        run(self.command_at(command, kit).arg("x"), &[])
    }

    fn lister(&self, kit: bool) -> Said {
        self.lister_at(&self.here.join("lister"), kit)
    }

    /// A repository whose program is proved; it says `first`, and then does this.
    fn doing(name: &str, script: &str) -> Bench {
        let bench = Bench::new(name);
        bench.write("crates/deck/file", &format!("first; {script} #"));
        let mut command = bench.command_at(&bench.here.join("tools/proved"), true);
        let said = run(command.arg(bench.here.join("target/bin/lister")).args(["tools/crate", "lister"]), &[]);
        assert_eq!(said.status, Some(0), "{said:?}");
        bench
    }

    /// How often the kit was asked.
    fn calls(&self) -> usize {
        fs::read_to_string(self.here.join("calls")).map_or(0, |calls| calls.lines().count())
    }
}

fn ran(said: &Said, text: &str) {
    assert_eq!((said.text().as_str(), said.status), (text, Some(0)), "{said:?}");
}

fn did_not_run(said: &Said) {
    assert_eq!((said.text().as_str(), said.status), ("", Some(1)), "{said:?}");
    assert!(!said.err.is_empty());
}

#[test]
fn a_broken_crate_runs_nothing_however_often() {
    let bench = Bench::new("broken");
    ran(&bench.lister(true), "first x\n");
    bench.write("crates/deck/file", "second");
    bench.write("broken", "");
    did_not_run(&bench.lister(true));
    did_not_run(&bench.lister(true));
    did_not_run(&bench.lister(false));
    bench.remove("broken");
    ran(&bench.lister(true), "second x\n");
}

#[test]
fn once_proved_the_kit_is_not_asked() {
    let bench = Bench::new("asked");
    did_not_run(&bench.lister(false));
    ran(&bench.lister(true), "first x\n");
    ran(&bench.lister(true), "first x\n");
    ran(&bench.lister(false), "first x\n");
    assert_eq!(bench.calls(), 1);
}

/// Files that come back to what was proved are proved.
#[test]
fn what_was_proved_is_known_by_its_bytes() {
    let bench = Bench::new("bytes");
    ran(&bench.lister(true), "first x\n");
    bench.write("crates/deck/file", "second");
    did_not_run(&bench.lister(false));
    bench.write("crates/deck/file", "first");
    ran(&bench.lister(false), "first x\n");
    bench.write("crates/deck/more", "");
    did_not_run(&bench.lister(false));
    bench.remove("crates/deck/more");
    ran(&bench.lister(false), "first x\n");
    bench.write("crates.txt", "deck: digits\n");
    did_not_run(&bench.lister(false));
}

#[test]
fn another_program_in_its_place_is_not_run() {
    let bench = Bench::new("place");
    ran(&bench.lister(true), "first x\n");
    for place in ["target/bin/lister", "crates/lister/out/lister"] {
        script(&bench.here.join(place), "#!/bin/sh\necho another\n");
    }
    did_not_run(&bench.lister(false));
    ran(&bench.lister(true), "first x\n");
    script(&bench.here.join("crates/lister/out/lister"), "#!/bin/sh\necho another\n");
    ran(&bench.lister(true), "first x\n");
    assert_eq!(bench.calls(), 2);
}

#[test]
fn a_link_to_a_root_command_works() {
    let bench = Bench::new("link");
    ran(&bench.lister(true), "first x\n");
    fs::create_dir(bench.here.join("far")).expect("a folder");
    symlink("../lister", bench.here.join("far/l")).expect("a link");
    symlink("l", bench.here.join("far/l2")).expect("a link");
    ran(&bench.lister_at(&bench.here.join("far/l2"), false), "first x\n");
}

/// What a root command says and ends with, once its program is proved.
fn ends(name: &str, script: &str, err: &str, status: i32) {
    let said = Bench::doing(name, script).lister(false);
    assert_eq!((said.text().as_str(), said.err.as_str(), said.status), ("first\n", err, Some(status)));
}

#[test]
fn a_program_that_tells_of_an_error_ends_with_1() {
    ends("tells", "echo told >&2", "told\n", 1);
    ends("tells_a_byte", "printf '\\n' >&2", "\n", 1);
    ends("tells_nothing", "printf '' >&2", "", 0);
}

#[test]
fn the_status_of_a_program_is_its_own() {
    ends("status", "exit 3", "", 3);
    ends("status_told", "echo told >&2; exit 3", "told\n", 3);
    ends("status_signal", "kill -TERM $$", "", 128 + 15);
}

/// The first run proves it, and says so on standard error.
#[test]
fn what_the_proving_says_does_not_count() {
    let bench = Bench::new("says");
    let said = bench.lister(true);
    assert!(said.err.contains("proving and building it"), "{said:?}");
    ran(&said, "first x\n");
}

#[test]
fn a_program_reads_the_standard_input_of_the_command() {
    let bench = Bench::doing("reads", "cat");
    let said = run(&mut bench.command_at(&bench.here.join("lister"), false), b"one\ntwo\n");
    ran(&said, "first\none\ntwo\n");
}

/// The command with a folder of its own for temporary files.
fn with_own_folder(bench: &Bench) -> (PathBuf, Command) {
    let own = bench.here.join("temporary");
    fs::create_dir(&own).expect("a folder");
    let mut command = bench.command_at(&bench.here.join("lister"), false);
    command.env("TMPDIR", &own);
    (own, command)
}

fn files_in(folder: &Path) -> usize {
    fs::read_dir(folder).expect("a folder").count()
}

/// Without the folder there is nothing told either: the file was made there.
#[test]
fn no_temporary_file_is_left() {
    let (own, mut command) = with_own_folder(&Bench::doing("left", "echo told >&2"));
    assert_eq!(run(&mut command, &[]).status, Some(1));
    assert_eq!(files_in(&own), 0);
    fs::remove_dir(&own).expect("an empty folder");
    assert_ne!(run(&mut command, &[]).err, "told\n");
}

/// A signal to the command ends the program too; what it had told until then is told.
#[test]
fn an_interrupted_command_ends_its_program() {
    for signal in ["INT", "TERM", "HUP"] {
        let bench = Bench::doing(&format!("interrupted_{signal}"), "echo told >&2; echo $$; exec sleep 60");
        let (own, mut command) = with_own_folder(&bench);
        let mut child = command.stdout(Stdio::piped()).stderr(Stdio::piped()).spawn().expect("it starts");
        let mut lines = BufReader::new(child.stdout.take().expect("its output")).lines().map_while(Result::ok);
        let program = lines.nth(1).expect("the program's number");
        let there = || Path::new("/proc").join(&program).exists();
        assert!(there());
        run(Command::new("sh").args(["-c", &format!("kill -{signal} {}", child.id())]), &[]);
        let said = child.wait_with_output().expect("its end");
        assert_eq!((said.status.code(), said.stderr.as_slice()), (Some(128 + 15), &b"told\n"[..]), "{signal}");
        assert_eq!((there(), files_in(&own)), (false, 0), "{signal}");
    }
}
