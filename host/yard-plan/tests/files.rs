//! Files that cannot be read, usage, and output that cannot be written: a status and at most one line of error.

use std::ffi::OsStr;
use std::fs::{self, File};
use std::io::Write;
use std::path::{Path, PathBuf};
use std::process::{Command, Output, Stdio};

const USAGE: &str =
    "yard-plan: usage: yard-plan show FILE | check FILE | image PLAN IMAGE | log PLAN LOG | --help\n";
const UNWRITTEN: &str = "yard-plan: standard output cannot be written\n";

fn program() -> Command {
    Command::new(env!("CARGO_BIN_EXE_yard-plan"))
}

fn run<S: AsRef<OsStr>>(arguments: &[S]) -> Output {
    program().args(arguments).output().unwrap()
}

fn sample() -> PathBuf {
    Path::new(env!("CARGO_MANIFEST_DIR")).join("../../plans/sample.plan")
}

/// A file of this test's own.
fn written(name: &str, bytes: &[u8]) -> PathBuf {
    let folder = Path::new(env!("CARGO_TARGET_TMPDIR")).join("files");
    fs::create_dir_all(&folder).unwrap();
    let path = folder.join(name);
    fs::write(&path, bytes).unwrap();
    path
}

/// Asserts status 2, nothing on standard output, and the line on standard error.
fn assert_failed(done: &Output, line: &str) {
    assert_eq!(String::from_utf8_lossy(&done.stderr), line);
    assert_eq!(done.stdout, b"");
    assert_eq!(done.status.code(), Some(2));
}

/// The command on the sample and the file.
fn assert_second_unreadable(command: &str, path: &Path, line: &str) {
    let line = format!("yard-plan: {}: {line}\n", path.display());
    assert_failed(&run(&[command.as_ref(), sample().as_path(), path]), &line);
}

/// Every command with the file as plan, and as image.
fn assert_unreadable(path: &Path, reason: &str) {
    let line = format!("yard-plan: {}: {reason}\n", path.display());
    for command in ["show", "check"] {
        assert_failed(&run(&[command.as_ref(), path]), &line);
    }
    for command in ["image", "log"] {
        assert_failed(&run(&[command.as_ref(), path, &sample()]), &line);
    }
    let reason = reason.replace(
        "be a plan, which has at most 16,128",
        "be an image, which has 312",
    );
    assert_second_unreadable("image", path, &reason);
}

#[test]
fn an_empty_file_is_refused_as_any_other() {
    let empty = written("empty.plan", b"");
    for path in [empty.as_path(), Path::new("/dev/null")] {
        for command in ["show", "check"] {
            let done = run(&[command.as_ref(), path]);
            assert!(done.stdout.starts_with(b"refused 1\n"));
            assert_eq!((done.stderr, done.status.code()), (vec![], Some(1)));
        }
        let done = run(&["image".as_ref(), sample().as_path(), path]);
        assert!(done.stdout.starts_with(b"refused 11\n"));
        assert_eq!(done.status.code(), Some(1));
        let done = run(&["log".as_ref(), sample().as_path(), path]);
        assert_eq!(
            (done.stdout, done.status.code()),
            (b"accepted\n".to_vec(), Some(0))
        );
    }
}

#[test]
fn logs_that_cannot_be_read() {
    for (path, reason) in [
        (Path::new(""), "there is no such file"),
        (Path::new(env!("CARGO_TARGET_TMPDIR")), "is a directory"),
        (
            Path::new("/dev/zero"),
            "more than 268435456 bytes: too large for a log, which may have 268,435,456 here",
        ),
    ] {
        assert_second_unreadable("log", path, reason);
    }
}

/// Its first entry, 0, ends bad.
#[test]
fn a_log_may_have_256_mebibytes() {
    let path = written("large.log", b"");
    let file = File::options().write(true).open(&path).unwrap();
    file.set_len(1 << 28).unwrap();
    let done = run(&["log".as_ref(), sample().as_path(), &path]);
    assert!(done.stdout.starts_with(b"entry 0: bad, "));
    assert_eq!(done.status.code(), Some(4));
    file.set_len((1 << 28) + 1).unwrap();
    assert_second_unreadable(
        "log",
        &path,
        "268435457 bytes: too large for a log, which may have 268,435,456 here",
    );
    fs::remove_file(path).unwrap();
}

#[test]
fn missing_files_and_directories() {
    let missing = Path::new(env!("CARGO_TARGET_TMPDIR")).join("files/missing.plan");
    assert_unreadable(&missing, "there is no such file");
    let within = sample().join("within");
    assert_unreadable(&within, "Not a directory (os error 20)");
    assert_unreadable(Path::new(env!("CARGO_TARGET_TMPDIR")), "is a directory");
    assert_unreadable(Path::new(""), "there is no such file");
}

#[test]
fn large_files_are_not_read() {
    let path = written("large.plan", b"PLAN");
    let file = File::options().write(true).open(&path).unwrap();
    for (length, size) in [
        (1 << 20, None),
        ((1 << 20) + 1, Some("1048577")),
        (1 << 40, Some("1099511627776")),
    ] {
        file.set_len(length).unwrap();
        match size {
            None => assert_eq!(
                run(&["check".as_ref(), path.as_path()]).status.code(),
                Some(1)
            ),
            Some(size) => assert_unreadable(
                &path,
                &format!("{size} bytes: too large to be a plan, which has at most 16,128"),
            ),
        }
    }
    fs::remove_file(path).unwrap();
}

#[test]
fn a_device_without_end_is_too_large() {
    assert_unreadable(
        Path::new("/dev/zero"),
        "more than 1048576 bytes: too large to be a plan, which has at most 16,128",
    );
}

/// As `other-program | yard-plan check /dev/stdin` does.
#[cfg(unix)]
#[test]
fn a_pipe_is_read_as_a_file() {
    let mut child = program()
        .args(["check", "/dev/stdin"])
        .stdin(Stdio::piped())
        .stdout(Stdio::piped())
        .spawn()
        .unwrap();
    let plan = fs::read(sample()).unwrap();
    child.stdin.take().unwrap().write_all(&plan).unwrap();
    let done = child.wait_with_output().unwrap();
    assert_eq!(done.stdout, b"accepted\n");
    assert_eq!(done.status.code(), Some(0));
}

/// Where the tests run as root nothing is forbidden, and nothing is tested.
#[cfg(unix)]
#[test]
fn a_file_without_permission() {
    use std::os::unix::fs::PermissionsExt;
    let path = written("forbidden.plan", b"PLAN");
    fs::set_permissions(&path, fs::Permissions::from_mode(0o000)).unwrap();
    if File::open(&path).is_err() {
        assert_unreadable(&path, "there is no permission to read it");
    }
}

#[test]
fn wrong_usage() {
    let wrong: [&[&str]; 13] = [
        &[],
        &["show"],
        &["check", "a", "b"],
        &["image", "a"],
        &["image", "a", "b", "c"],
        &["log", "a"],
        &["log", "a", "b", "c"],
        &["mend", "a"],
        &["help"],
        &["--Help"],
        &["-H", "a"],
        &["", ""],
        &["Check", "a"],
    ];
    for arguments in wrong {
        assert_failed(&run(arguments), USAGE);
    }
}

#[test]
fn help_names_every_command_and_status() {
    let asked: [&[&str]; 4] = [
        &["--help"],
        &["-h"],
        &["check", "--help"],
        &["image", "a", "b", "-h"],
    ];
    for arguments in asked {
        let done = run(arguments);
        let output = String::from_utf8(done.stdout).unwrap();
        let begins = |start: &str| output.lines().filter(|l| l.starts_with(start)).count();
        for line in [
            "  show FILE ",
            "  check FILE ",
            "  image PLAN IMAGE ",
            "  log PLAN LOG ",
        ] {
            assert_eq!(begins(line), 1, "{line}");
        }
        for status in ["  0  ", "  1  ", "  2  ", "  3  ", "  4  "] {
            assert_eq!(begins(status), 1, "{status}");
        }
        assert_eq!((done.stderr, done.status.code()), (vec![], Some(0)));
    }
}

#[cfg(unix)]
#[test]
fn arguments_that_are_no_text() {
    use std::os::unix::ffi::OsStrExt;
    let odd = OsStr::from_bytes(b"\xff\xfe");
    assert_failed(&run(&[odd, odd]), USAGE);
    assert_failed(
        &run(&[OsStr::new("check"), odd]),
        "yard-plan: \u{fffd}\u{fffd}: there is no such file\n",
    );
}

/// The program with this as its standard output.
fn run_into(arguments: &[&OsStr], output: impl Into<Stdio>) -> Output {
    let mut program = program();
    program.args(arguments).stdout(output);
    program.stderr(Stdio::piped()).output().unwrap()
}

/// A full device, and a descriptor that is open for reading alone.
#[test]
fn output_that_cannot_be_written_is_told() {
    let full = File::options().write(true).open("/dev/full").unwrap();
    let read_only = File::open("/dev/null").unwrap();
    let sample = sample();
    let plan = sample.as_os_str();
    let asked: [&[&OsStr]; 4] = [
        &["check".as_ref(), plan],
        &["show".as_ref(), plan],
        &["log".as_ref(), plan, "/dev/null".as_ref()],
        &["--help".as_ref()],
    ];
    for output in [full, read_only] {
        for arguments in asked {
            let done = run_into(arguments, output.try_clone().unwrap());
            assert_eq!(String::from_utf8_lossy(&done.stderr), UNWRITTEN);
            assert_eq!(done.status.code(), Some(2));
        }
        let done = run_into(&["show".as_ref()], output);
        assert_eq!(String::from_utf8_lossy(&done.stderr), USAGE);
        assert_eq!(done.status.code(), Some(2));
    }
}

/// Nobody reads it, which is the caller's own wish.
#[test]
fn output_into_the_null_device_is_written() {
    let sample = sample();
    for null in [
        File::options().write(true).open("/dev/null").unwrap(),
        File::options()
            .read(true)
            .write(true)
            .open("/dev/null")
            .unwrap(),
    ] {
        let done = run_into(&["show".as_ref(), sample.as_os_str()], null);
        assert_eq!((done.stderr, done.status.code()), (vec![], Some(0)));
    }
}

#[test]
fn a_closed_pipe_ends_quietly() {
    let plan = sample().with_file_name("maximal.plan");
    let mut reader = Command::new("true").stdin(Stdio::piped()).spawn().unwrap();
    let pipe = reader.stdin.take().unwrap();
    reader.wait().unwrap();
    let done = run_into(&["show".as_ref(), plan.as_os_str()], pipe);
    assert_eq!((done.stderr, done.status.code()), (vec![], Some(2)));
}
