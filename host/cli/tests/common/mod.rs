//! Running the command in a directory of its own: `csorvelin`, or in the package `stopping` the one with stops.
#![allow(dead_code)]

pub mod json;

use csorvelin_differential::{cases, random::Random};
use csorvelin_model::case::{Case, QUANTITIES};
use csorvelin_model::equations::work_out;
use csorvelin_model::{archive, ranges};
use std::collections::BTreeMap;
use std::ffi::OsStr;
use std::fs::Metadata;
use std::io::Write;
use std::os::unix::fs::{MetadataExt, PermissionsExt};
use std::os::unix::process::CommandExt;
use std::path::{Path, PathBuf};
use std::process::{Child, Command, Output, Stdio};
use std::time::{Duration, Instant};
use std::{env, fs, process, thread};

/// The case of P1 as fields.
pub const P1: [&str; 6] = ["kind=4", "row=1", "dossier=7", "a=100", "b=0", "c=1"];

/// What is to happen soon has happened by then, on a busy machine too.
pub const SOON: Duration = Duration::from_secs(30);

/// A user and a group that own nothing.
pub const OTHER: u32 = 65534;

/// The command that is tested.
pub fn program() -> &'static Path {
    let stopping = option_env!("CARGO_BIN_EXE_csorvelin-stopping");
    Path::new(option_env!("CARGO_BIN_EXE_csorvelin").or(stopping).expect("set by cargo for tests"))
}

/// A directory for one test, empty at its start.
pub struct Place {
    pub directory: PathBuf,
}

impl Place {
    pub fn new(name: &str) -> Place {
        let directory = Path::new(env!("CARGO_TARGET_TMPDIR")).join(name);
        let _ = fs::remove_dir_all(&directory);
        fs::create_dir_all(&directory).unwrap();
        Place { directory }
    }

    pub fn path(&self, name: &str) -> PathBuf {
        self.directory.join(name)
    }

    pub fn read(&self, name: &str) -> Vec<u8> {
        fs::read(self.path(name)).unwrap()
    }

    pub fn write(&self, name: &str, bytes: &[u8]) {
        fs::write(self.path(name), bytes).unwrap();
    }

    pub fn exists(&self, name: &str) -> bool {
        self.path(name).symlink_metadata().is_ok()
    }

    /// The names in the directory, sorted.
    pub fn names(&self) -> Vec<String> {
        let entries = fs::read_dir(&self.directory).unwrap();
        let mut names: Vec<String> = entries.map(|entry| entry.unwrap().file_name().into_string().unwrap()).collect();
        names.sort();
        names
    }

    /// The files in the directory, by name: their bytes, of a link where it leads. Directories are left out.
    pub fn files(&self) -> BTreeMap<String, Vec<u8>> {
        let mut files = BTreeMap::new();
        for name in self.names() {
            let path = self.path(&name);
            let metadata = path.symlink_metadata().unwrap();
            if metadata.is_symlink() {
                files.insert(name, fs::read_link(path).unwrap().into_os_string().into_encoded_bytes());
            } else if metadata.is_file() {
                files.insert(name, fs::read(path).unwrap());
            }
        }
        files
    }

    /// The dossiers in an archive in which all is in order, record by record.
    pub fn dossiers(&self, archive: &str) -> Vec<u64> {
        let verified = self.run(&["verify", archive]);
        assert!(verified.ends(0).out.ends_with("verified: all agree\n"), "{}", verified.out);
        let bytes = self.read(archive);
        let records = bytes[..bytes.len() - 16].chunks(96);
        records.map(|record| u64::from_le_bytes(record[8..16].try_into().unwrap())).collect()
    }

    pub fn set_mode(&self, name: &str, mode: u32) {
        fs::set_permissions(self.path(name), fs::Permissions::from_mode(mode)).unwrap();
    }

    pub fn command(&self, words: &[impl AsRef<OsStr>]) -> Command {
        let mut command = Command::new(program());
        command.args(words).current_dir(&self.directory).stdin(Stdio::null());
        command
    }

    /// The command started by a shell that has done something before, as `umask 0`.
    pub fn command_after(&self, before: &str, words: &[&str]) -> Command {
        let mut command = Command::new("sh");
        command.arg("-c").arg(format!("{before} && exec \"$0\" \"$@\"")).arg(program()).args(words);
        command.current_dir(&self.directory).stdin(Stdio::null());
        command
    }

    pub fn run(&self, words: &[impl AsRef<OsStr>]) -> Ran {
        Ran::of(self.command(words).output().unwrap())
    }

    /// A run with these bytes on standard input.
    pub fn run_on(&self, input: &[u8], words: &[impl AsRef<OsStr>]) -> Ran {
        let mut command = self.command(words);
        let mut child = command.stdin(Stdio::piped()).stdout(Stdio::piped()).stderr(Stdio::piped()).spawn().unwrap();
        let mut to = child.stdin.take().unwrap();
        thread::scope(|scope| {
            // A command that has read enough closes its end.
            scope.spawn(move || drop(to.write_all(input)));
            Ran::of(child.wait_with_output().unwrap())
        })
    }

    /// An archive of no record, by the command.
    pub fn archive(&self, name: &str) {
        self.run(&["new", name]).ends(0);
    }
}

/// A directory that every user reaches and may write to, with a copy of the command. It is removed at the end.
pub struct Shared {
    directory: PathBuf,
    pub place: Place,
}

impl Shared {
    pub fn new(name: &str) -> Shared {
        let directory = env::temp_dir().join(format!("csorvelin-{name}-{}", process::id()));
        fs::create_dir(&directory).unwrap();
        let shared = Shared { place: Place { directory: directory.join("place") }, directory };
        fs::create_dir(&shared.place.directory).unwrap();
        // Another program makes the copy: while this one has it open for writing nobody can run it.
        let copied = Command::new("cp").arg(program()).arg(shared.program()).status().unwrap();
        assert!(copied.success());
        for (path, mode) in [("", 0o755), ("program", 0o755), ("place", 0o777)] {
            fs::set_permissions(shared.directory.join(path), fs::Permissions::from_mode(mode)).unwrap();
        }
        shared
    }

    fn program(&self) -> PathBuf {
        self.directory.join("program")
    }

    /// The command run by an ordinary user: another one where root runs the tests.
    pub fn command(&self, words: &[&str]) -> Command {
        let mut command = Command::new(self.program());
        command.args(words).current_dir(&self.place.directory).stdin(Stdio::null());
        if is_root() {
            command.uid(OTHER).gid(OTHER);
        }
        command
    }

    pub fn run(&self, words: &[&str]) -> Ran {
        Ran::of(self.command(words).output().unwrap())
    }
}

impl Drop for Shared {
    fn drop(&mut self) {
        // A test may have made it one that cannot be emptied.
        let _ = fs::set_permissions(&self.place.directory, fs::Permissions::from_mode(0o700));
        let _ = fs::remove_dir_all(&self.directory);
    }
}

/// Whether root runs the tests, and may run programs as another user.
pub fn is_root() -> bool {
    fs::metadata("/proc/self").unwrap().uid() == 0 && Command::new("true").uid(OTHER).gid(OTHER).status().is_ok()
}

/// Owner, group and mode of a file.
pub fn rights(metadata: &Metadata) -> (u32, u32, u32) {
    (metadata.uid(), metadata.gid(), metadata.mode() & 0o7777)
}

/// What a run of the command left.
pub struct Ran {
    pub status: Option<i32>,
    pub out: String,
    pub err: String,
}

impl Ran {
    pub fn of(output: Output) -> Ran {
        Ran {
            status: output.status.code(),
            out: String::from_utf8(output.stdout).unwrap(),
            err: String::from_utf8(output.stderr).unwrap(),
        }
    }

    /// Ended with this status; otherwise the test shows what was printed.
    pub fn ends(&self, status: i32) -> &Ran {
        assert_eq!(self.status, Some(status), "\nout: {}\nerr: {}", self.out, self.err);
        self
    }
}

/// What a process leaves that must end soon, and is ended where it does not.
pub fn ended(mut child: Child) -> Ran {
    let deadline = Instant::now() + SOON;
    while child.try_wait().unwrap().is_none() {
        if Instant::now() > deadline {
            child.kill().unwrap();
            child.wait().unwrap();
            panic!("it did not end");
        }
        thread::sleep(Duration::from_millis(2));
    }
    Ran::of(child.wait_with_output().unwrap())
}

/// The words that file a case into an archive, `dossier` being that field.
pub fn filing<'a>(archive: &'a str, dossier: &'a str) -> [&'a str; 8] {
    ["file", archive, "kind=4", "row=1", "a=5", "b=0", "c=1", dossier]
}

/// An archive of `n` records with dossiers from 1 on, made by the model.
pub fn archive_of(n: u64, random: &mut Random) -> Vec<u8> {
    let mut bytes = archive::trailer(0);
    for dossier in 1..=n {
        let case = Case { dossier, ..cases::valid(random) };
        bytes = with(&bytes, &case);
    }
    bytes
}

/// The archive with one more case filed, by the model.
pub fn with(archive: &[u8], case: &Case) -> Vec<u8> {
    let used = archive.len() as u64;
    let mut bytes = archive.to_vec();
    bytes.resize(archive.len() + 96, 0);
    assert_eq!(archive::file(&mut bytes, used, &case.encode()).0, 0);
    bytes
}

/// The archive of these cases, filed one after another by the model.
pub fn archive_with(cases: &[Case]) -> Vec<u8> {
    cases.iter().fold(archive::trailer(0), |archive, case| with(&archive, case))
}

/// A case as a record, by the model.
pub fn record(case: &Case) -> Vec<u8> {
    archive::record(&case.encode(), &work_out(&case.encode()).unwrap())
}

/// An archive of these records, whether a call would have filed them or not.
pub fn archive_of_records(records: &[Vec<u8>]) -> Vec<u8> {
    [records.concat(), archive::trailer(records.len() as u64)].concat()
}

/// An archive of a case `n` times, with dossiers from 1 on.
pub fn copies(case: &Case, n: u64) -> Vec<u8> {
    let mut records = record(case).repeat(n as usize);
    for (record, dossier) in records.chunks_mut(96).zip(1..) {
        record[8..16].copy_from_slice(&u64::to_le_bytes(dossier));
    }
    [records, archive::trailer(n)].concat()
}

/// The case of P1.
pub fn p1() -> Case {
    let patterns = [100f64, 0., 1., 0., 0., 0.].map(f64::to_bits);
    Case { kind: 4, row: 1, route: 1, user: 0, count: 0, dossier: 7, patterns }
}

/// Cases of every kind and row, so many of each, with dossiers from 1 on.
pub fn of_every_row(times: usize, random: &mut Random) -> Vec<Case> {
    let rows = cases::kinds_and_rows().into_iter().flat_map(|row| std::iter::repeat_n(row, times));
    rows.zip(1..).map(|((kind, row), dossier)| Case { dossier, ..cases::valid_of(kind, row, random) }).collect()
}

/// A case as fields, with the quantities that its kind lists as patterns.
pub fn fields(case: &Case) -> Vec<String> {
    let Case { kind, row, route, user, count, dossier, patterns } = case;
    let whole = [format!("kind={kind}"), format!("row={row}"), format!("route={route}"), format!("user={user}")];
    let listed = ranges::listed(*kind, *row).into_iter();
    let quantities = listed.map(|listed| format!("{}={:#018x}", QUANTITIES[listed.index], patterns[listed.index]));
    whole.into_iter().chain([format!("T={count}"), format!("dossier={dossier}")]).chain(quantities).collect()
}

/// The columns that make a case.
pub const COLUMNS: &str = "kind,row,route,user,T,dossier,a,b,c,d,e,f";

/// Cases as CSV: quantities that their kinds list as decimals, or as patterns where there is none; the others blank where
/// they are zero.
pub fn csv(cases: &[Case]) -> String {
    let lines = cases.iter().map(|case| {
        let Case { kind, row, route, user, count, dossier, patterns } = case;
        let listed = ranges::listed(*kind, *row);
        let quantities = patterns.iter().enumerate().map(|(index, &pattern)| match f64::from_bits(pattern) {
            _ if pattern == 0 && listed.iter().all(|listed| listed.index != index) => String::new(),
            value if value.is_finite() => format!("{value:e}"),
            _ => format!("{pattern:#x}"),
        });
        let quantities: Vec<String> = quantities.collect();
        format!("{kind},{row},{route},{user},{count},{dossier},{}\n", quantities.join(","))
    });
    format!("{COLUMNS}\n") + &lines.collect::<String>()
}

/// A command's words with further ones behind.
pub fn words(first: &[&str], further: &[impl AsRef<str>]) -> Vec<String> {
    let first = first.iter().map(|word| word.to_string());
    first.chain(further.iter().map(|word| word.as_ref().to_string())).collect()
}

/// What comes to a terminal from a shell's line, where the program `script` is that of util-linux; others take other words.
/// The line names the command as "$CSORVELIN".
pub fn on_terminal(place: &Place, line: &str) -> Option<Ran> {
    let version = Command::new("script").arg("--version").stdin(Stdio::null()).output().ok()?;
    String::from_utf8_lossy(&version.stdout).contains("util-linux").then(|| {
        let mut command = Command::new("script");
        command.args(["--quiet", "--return", "--command", line, "/dev/null"]).current_dir(&place.directory);
        Ran::of(command.env("CSORVELIN", program()).stdin(Stdio::null()).output().unwrap())
    })
}

/// Checks what was shown of a progress: lines over one another, at least one, and the last wiped.
pub fn is_progress(shown: &str, done: &str, total: u64, what: &str) {
    let (lines, wiped) = shown.split_at(shown.rfind('\r').expect("a progress"));
    assert_eq!(wiped, "\r\u{1b}[K");
    for line in lines.split('\r').skip(1) {
        let number =
            line.strip_prefix(&format!("{done} ")).and_then(|line| line.strip_suffix(&format!(" of {total} {what}")));
        assert!(number.is_some_and(|number| number.parse::<u64>().unwrap() < total), "{line}");
    }
}

/// Whether a program of the system can be run.
pub fn installed(program: &str) -> bool {
    let mut command = Command::new(program);
    command.arg("--version").stdin(Stdio::null()).stdout(Stdio::null()).stderr(Stdio::null());
    command.status().is_ok_and(|status| status.success())
}
