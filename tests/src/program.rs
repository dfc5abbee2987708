//! Programs that were built, found and run. Those of rt are for x86-64: on another machine RUN_WITH names what runs them.
//! So are those that cargo builds beside the tests, if it compiles the tests for x86-64 too.

use std::ffi::OsStr;
use std::io::Write;
use std::path::{Path, PathBuf};
use std::process::{Command, Output, Stdio};

/// The repository.
pub fn repository() -> PathBuf {
    Path::new(env!("CARGO_MANIFEST_DIR")).join("..").canonicalize().expect("the repository is there")
}

/// A program that rt built, copied to target/bin or the folder that BIN names.
pub fn built(name: &str) -> PathBuf {
    let folder = std::env::var_os("BIN").unwrap_or("target/bin".into());
    repository().join(folder).join(name)
}

/// The words that start a program, after RUN_WITH where it is set.
pub fn words(path: &Path) -> Vec<PathBuf> {
    let with = std::env::var_os("RUN_WITH").filter(|with| !with.is_empty()).map(PathBuf::from);
    with.into_iter().chain([path.to_path_buf()]).collect()
}

/// A command that starts a program for x86-64.
pub fn command(path: &Path) -> Command {
    let words = words(path);
    let mut command = Command::new(&words[0]);
    command.args(&words[1..]);
    command
}

/// A command that starts a program that was compiled as this one was.
pub fn beside(path: &str) -> Command {
    if cfg!(target_arch = "x86_64") {
        command(Path::new(path))
    } else {
        Command::new(path)
    }
}

/// Runs a command on some standard input, to its end. A program may stop reading before the end: what is left over then
/// has nowhere to go, and that is no fault.
pub fn run(mut command: Command, input: &[u8]) -> Output {
    let mut child = command
        .stdin(Stdio::piped())
        .stdout(Stdio::piped())
        .stderr(Stdio::piped())
        .spawn()
        .unwrap_or_else(|fault| panic!("{:?}: {fault}; 'make programs' makes the programs", command.get_program()));
    let mut stdin = child.stdin.take().expect("it was asked for");
    let given = input.to_vec();
    let feeder = std::thread::spawn(move || drop(stdin.write_all(&given)));
    let ended = child.wait_with_output().expect("its output can be read");
    feeder.join().expect("the feeder does not panic");
    ended
}

/// The words of a command line, for messages.
pub fn line<W: AsRef<OsStr>>(words: &[W]) -> String {
    words.iter().map(|word| word.as_ref().to_string_lossy()).collect::<Vec<_>>().join(" ")
}

/// All that the listing program prints: the one that LISTING_PROGRAM names, or target/bin/listing. A program that is
/// missing, or that does not end well, is a fault.
pub fn listing(input: &[u8]) -> Vec<u8> {
    let path = std::env::var_os("LISTING_PROGRAM").map_or_else(|| built("listing"), PathBuf::from);
    let ended = run(command(&path), input);
    assert!(ended.status.success(), "{} ended with {}", path.display(), ended.status);
    ended.stdout
}
