//! The turn printer: prints what the query of a file answers, turn by turn. It is the proved printer's own source, made into Rust by
//! build.rs; the module standard stands in for Rattle's. What is added here is the exit status, and why a query was refused.

#[cfg(not(target_pointer_width = "64"))]
compile_error!("the turn printer counts the words of a file's rows in usize and needs 64 bits; the library does not");

mod refusals;
mod standard;

use standard::HostRuntime;
use std::env;
use std::ffi::OsStr;
use std::process::ExitCode;

include!(concat!(env!("OUT_DIR"), "/printer/modules.rs"));

const REFUSED: u8 = 1;
const FAILED: u8 = 2;

const HELP: &str = "\
usage: turns FILE
       turns --help
       turns --version

Prints what the query of a file of words answers, turn by turn; tools/wood pack makes such a file of a text.
The exit code is 0 where the query was played to its end, 1 where it was refused, and 2 where FILE cannot be read or the
arguments are wrong. Standard error says why.
";

/// The number in the last line that was printed, if that is a refusal. No other line begins so.
fn refused(last: &[u8]) -> Option<u32> {
    let text = std::str::from_utf8(last).ok()?;
    text.strip_prefix("refused ")?.trim_end().parse().ok()
}

#[cfg(unix)]
fn bytes(path: &OsStr) -> Vec<u8> {
    std::os::unix::ffi::OsStrExt::as_bytes(path).to_vec()
}

#[cfg(not(unix))]
fn bytes(path: &OsStr) -> Vec<u8> {
    path.to_string_lossy().into_owned().into_bytes()
}

fn print_file(path: &OsStr) -> ExitCode {
    let rt = HostRuntime::default();
    print_path(&rt, &bytes(path));
    if rt.has_failed() {
        return ExitCode::from(FAILED);
    }
    match refused(&rt.last_written()) {
        Some(number) => {
            eprintln!("turns: refused by {number}: {}", refusals::reason(number));
            ExitCode::from(REFUSED)
        }
        None => ExitCode::SUCCESS,
    }
}

/// Whether standard output was closed when the program was started. Rust's runtime opens /dev/null in its place, for reading and writing, so
/// that writing never fails; whoever means /dev/null opens it for writing alone. Told on Linux only.
fn output_closed() -> bool {
    let is_null = std::fs::read_link("/proc/self/fd/1").map_or(false, |path| path.as_os_str() == "/dev/null");
    let flags = std::fs::read_to_string("/proc/self/fdinfo/1").unwrap_or_default();
    let both_ways = flags.lines().any(|line| line.starts_with("flags:") && line.ends_with('2'));
    is_null && both_ways
}

fn main() -> ExitCode {
    let words: Vec<_> = env::args_os().skip(1).collect();
    if output_closed() {
        eprintln!("turns: standard output is closed");
        return ExitCode::from(FAILED);
    }
    match &words[..] {
        [word] if word == "--version" => {
            println!("turns {}", env!("CARGO_PKG_VERSION"));
            ExitCode::SUCCESS
        }
        [word] if word == "--help" || word == "-h" => {
            print!("{HELP}");
            ExitCode::SUCCESS
        }
        [path] => print_file(path),
        _ => {
            eprint!("{HELP}");
            ExitCode::from(FAILED)
        }
    }
}
