//! `front`: runs the built programs `bench` and `hold` on inputs that fail, trickle or never end and on outputs that
//! fail, and holds what they write to plain Rust's report. A report on a part of the input may have too high a tempo.
//! The program `clock` reads nothing, so that no input may change its list.

use compare::plain::{Policy, clock, report};
use compare::{generate, vectors};
use std::fmt;
use std::fs::{self, File, OpenOptions};
use std::io::{self, ErrorKind, PipeReader, PipeWriter, Read, Write};
use std::os::fd::AsRawFd;
use std::os::unix::fs::OpenOptionsExt;
use std::os::unix::process::ExitStatusExt;
use std::path::{Path, PathBuf};
use std::process::{Child, Command, ExitCode, ExitStatus, Stdio};
use std::thread::{self, JoinHandle};
use std::time::{Duration, Instant};

/// Where `rt run` in a program's folder puts it, from this project's folder.
const PROGRAMS: [&str; 3] = ["../crates/bench/out/bench", "../crates/hold/out/hold", "../crates/clock/out/clock"];
const BOX: &str = "../samples/box.bin";
/// The program looks at so many bytes of its input.
const INPUT: usize = 4_096;
/// The first bytes of Box: a file of their own, with a higher tempo.
const CUT: usize = 51;
/// A program that has not ended by then is stopped, which is a difference.
const PATIENCE: Duration = Duration::from_secs(20);
const LATE: Duration = Duration::from_millis(300);
/// Linux's flag for an open that never waits.
const NONBLOCKING: i32 = 0o4000;

fn main() -> ExitCode {
    let mut paths: Vec<PathBuf> = std::env::args_os().skip(1).map(PathBuf::from).collect();
    if paths.is_empty() {
        paths = PROGRAMS.map(at_home).into();
    }
    if let Some(path) = paths.iter().find(|path| !path.exists()) {
        eprintln!("{} is missing: `rt run` in its crate's folder makes it", path.display());
        return ExitCode::FAILURE;
    }
    let mut tally = Tally::default();
    for program in paths.into_iter().map(Program::at) {
        println!("{}, {}:", program.path.display(), program.prints);
        let tests: &[fn(&Program, &mut Tally) -> io::Result<()>] = match program.prints {
            Prints::Report(_) => &[inputs, broken_inputs, long_inputs, recorded, outputs, interruptions],
            Prints::Clock => &[unread_inputs, outputs, interruptions],
        };
        if let Err(error) = tests.iter().try_for_each(|test| test(&program, &mut tally)) {
            println!("a test could not be set up: {error}");
            return ExitCode::FAILURE;
        }
    }
    println!("{} runs, {} DIFFERENT", tally.runs, tally.different);
    if tally.different == 0 { ExitCode::SUCCESS } else { ExitCode::FAILURE }
}

/// Inputs that come whole, in pieces, late or not to their end.
fn inputs(program: &Program, tally: &mut Tally) -> io::Result<()> {
    let file = generate::boxed().bytes();
    let file = file.as_slice();
    let whole = || program.whole(file);
    assert_ne!(program.report(file), program.report(&file[..CUT]));

    tally.one("Box from a file", program.reads(File::open(at_home(BOX))?)?, whole());
    tally.one("Box through a pipe", program.fed(Feed::whole(file))?, whole());
    let bytes = Feed { rest: file.chunks(1).collect(), pause: Duration::from_millis(1), ..Feed::whole(file) };
    tally.one("Box, a byte at a time", program.fed(bytes)?, whole());
    let late = Feed { blocking: true, ..Feed::late(file) };
    tally.one("51 bytes of Box, the rest late", program.fed(late)?, whole());

    let there = Feed { first: file, end: End::BeforeStart, ..Feed::late(file) };
    tally.one("non-blocking: Box, closed", program.fed(there)?, whole());
    let open = Feed { first: file, rest: vec![], end: End::Never, ..Feed::late(file) };
    tally.one("non-blocking: Box, never closed", program.fed(open)?, program.unread());
    let never = Feed { rest: vec![], end: End::Never, ..Feed::late(file) };
    tally.one("non-blocking: 51 bytes of Box, the rest never", program.fed(never)?, program.unread());
    let late = program.fed(Feed::late(file))?;
    tally.one("non-blocking: 51 bytes of Box, the rest late", late, program.whole_or_unread(file));
    let mut runs = Vec::new();
    for millis in (30..70).step_by(2) {
        // The program starts after about 50 milliseconds.
        let command = program.in_shell("sleep 0.05; exec \"$0\"");
        let feed = Feed { pause: Duration::from_millis(millis), ..Feed::late(file) };
        runs.push((run_fed(command, feed)?, program.whole_or_unread(file)));
    }
    tally.many("non-blocking: 51 bytes of Box, the rest before or after the first read", runs);
    Ok(())
}

/// Inputs that cannot be read.
fn broken_inputs(program: &Program, tally: &mut Tally) -> io::Result<()> {
    let closed = run(program.in_shell("exec \"$0\" <&-"))?;
    tally.one("a closed input", closed, program.unread());
    tally.one("a directory as input", program.reads(File::open("/")?)?, program.unread());
    let write_only = OpenOptions::new().write(true).open("/dev/null")?;
    tally.one("a write-only input", program.reads(write_only)?, program.unread());
    Ok(())
}

/// Inputs of a program that reads none of them.
fn unread_inputs(program: &Program, tally: &mut Tally) -> io::Result<()> {
    let whole = || program.whole(&[]);
    tally.one("no input", program.reads(File::open("/dev/null")?)?, whole());
    tally.one("Box from a file", program.reads(File::open(at_home(BOX))?)?, whole());
    tally.one("zeros without end", program.reads(File::open("/dev/zero")?)?, whole());
    tally.one("a closed input", run(program.in_shell("exec \"$0\" <&-"))?, whole());
    tally.one("a directory as input", program.reads(File::open("/")?)?, whole());
    let file = generate::boxed().bytes();
    let never = Feed { rest: vec![], end: End::Never, ..Feed::late(&file) };
    tally.one("non-blocking: 51 bytes of Box, the rest never", program.fed(never)?, whole());
    Ok(())
}

/// None, and more than the program looks at.
fn long_inputs(program: &Program, tally: &mut Tally) -> io::Result<()> {
    tally.one("no input", program.reads(File::open("/dev/null")?)?, program.whole(&[]));
    let mut long = generate::boxed().bytes();
    long.resize(10_000_000, 0);
    assert_eq!(program.report(&long), program.report(&long[..INPUT]));
    tally.one("Box and zeros, 10 MB", program.fed(Feed::whole(&long))?, program.whole(&long));
    let zeros = program.reads(File::open("/dev/zero")?)?;
    tally.one("zeros without end", zeros, program.whole(&[0; INPUT]));
    Ok(())
}

/// The recorded reports, through the program.
fn recorded(program: &Program, tally: &mut Tally) -> io::Result<()> {
    let mut runs = Vec::new();
    let Prints::Report(policy) = program.prints else { return Ok(()) };
    for vector in vectors::reports(policy) {
        runs.push((program.fed(Feed::whole(vector.file))?, Expected::Report(vector.report.to_vec())));
    }
    tally.many("recorded reports", runs);
    Ok(())
}

/// Outputs that take nothing, or not all.
fn outputs(program: &Program, tally: &mut Tally) -> io::Result<()> {
    let full = OpenOptions::new().write(true).open("/dev/full")?;
    tally.one("a full disk", program.writes(full)?, program.unwritten());
    let closed = run(program.in_shell("exec \"$0\" </dev/null >&-"))?;
    tally.one("a closed output", closed, program.unwritten());
    tally.one("a read-only output", program.writes(File::open("/dev/null")?)?, program.unwritten());
    let (reader, writer) = full_pipe()?;
    tally.one("non-blocking: a full pipe", program.writes(writer)?, program.unwritten());
    drop(reader);
    tally.one("a pipe that nobody reads", program.writes(unread_pipe()?)?, program.unwritten());
    let mut ignoring = program.in_shell("trap '' PIPE; exec \"$0\" </dev/null");
    ignoring.stdout(unread_pipe()?);
    tally.one("a pipe that nobody reads, the signal ignored", run(ignoring)?, program.unwritten());

    // A file may grow to one block of 512 bytes: the first write is cut, and the second fails.
    let file = generate::bench_full();
    let input = std::env::temp_dir().join(format!("front-{}.in", std::process::id()));
    let output = input.with_extension("out");
    fs::write(&input, &file)?;
    let mut limited = program.in_shell("trap '' XFSZ; ulimit -f 1; exec \"$0\" <\"$1\" >\"$2\"");
    limited.arg(&input).arg(&output);
    let mut ran = run(limited)?;
    ran.out = fs::read(&output)?;
    fs::remove_file(&input)?;
    fs::remove_file(&output)?;
    tally.one("a file that may not grow", ran, Expected::Cut(program.report(&file), program.write));
    Ok(())
}

/// Calls that a signal interrupts: strace lets each fail so several times.
fn interruptions(program: &Program, tally: &mut Tally) -> io::Result<()> {
    let mut trial = by_strace();
    trial.arg("true");
    let usable = run(trial).is_ok_and(|ran| ran.ended());
    if !usable {
        println!("NOT TRIED  interrupted reads and writes: strace cannot be used");
        return Ok(());
    }
    let path = at_home(BOX).canonicalize()?;
    let expected = || program.whole(&generate::boxed().bytes());
    for (name, call) in [("interrupted reads", "read"), ("interrupted writes", "write")] {
        let mut traced = by_strace();
        // Only calls on the input, as the loader reads too; of writes there are no others.
        if call == "read" {
            traced.arg("-P").arg(&path);
        }
        traced.args(["-e", &format!("inject={call}:error=EINTR:when=1..8")]).arg(&program.path);
        traced.stdin(File::open(&path)?);
        tally.one(name, run(traced)?, expected());
    }
    Ok(())
}

fn by_strace() -> Command {
    let mut command = collecting("strace");
    command.args(["-qq", "-o", "/dev/null"]);
    command
}

/// What a run must come to.
enum Expected {
    /// This report, and nothing on standard error.
    Report(Vec<u8>),
    /// No report, and one line on standard error that starts so.
    Failure(&'static str),
    /// One or the other, as the bytes happen to come, and never another report.
    Either(Vec<u8>, &'static str),
    /// Only the first bytes of this report, and the line.
    Cut(Vec<u8>, &'static str),
}

impl fmt::Display for Expected {
    fn fmt(&self, f: &mut fmt::Formatter) -> fmt::Result {
        let text = |bytes: &[u8]| String::from_utf8_lossy(bytes).into_owned();
        match self {
            Expected::Report(report) => write!(f, "the report\n{}", text(report)),
            Expected::Failure(start) => write!(f, "a line `{start}..` and no report"),
            Expected::Either(report, start) => {
                write!(f, "a line `{start}..` or the report\n{}", text(report))
            }
            Expected::Cut(report, start) => write!(f, "a line `{start}..` and a part of\n{}", text(report)),
        }
    }
}

/// What a run came to.
struct Ran {
    out: Vec<u8>,
    err: String,
    /// None if the program had to be stopped.
    status: Option<ExitStatus>,
}

impl Ran {
    fn meets(&self, expected: &Expected) -> bool {
        match expected {
            Expected::Report(report) => self.reported(report),
            Expected::Failure(start) => self.told(start) && self.out.is_empty(),
            Expected::Either(report, start) => {
                self.reported(report) || (self.told(start) && self.out.is_empty())
            }
            Expected::Cut(report, start) => {
                self.told(start) && self.out.len() < report.len() && report.starts_with(&self.out)
            }
        }
    }

    fn reported(&self, report: &[u8]) -> bool {
        self.ended() && self.err.is_empty() && self.out == report
    }

    /// One line on standard error: the start, and a reason.
    fn told(&self, start: &str) -> bool {
        let reason = self.err.strip_prefix(start).and_then(|rest| rest.strip_suffix('\n'));
        self.ended() && reason.is_some_and(|reason| !reason.is_empty() && !reason.contains('\n'))
    }

    fn ended(&self) -> bool {
        self.status.is_some_and(|status| status.success())
    }

    fn signal(&self) -> Option<i32> {
        self.status.and_then(|status| status.signal())
    }
}

impl fmt::Display for Ran {
    fn fmt(&self, f: &mut fmt::Formatter) -> fmt::Result {
        let first = self.out.split(|&byte| byte == b'\n').find(|line| *line != b"hold").unwrap_or_default();
        match self.out.len() {
            0 => write!(f, "no report")?,
            length => write!(f, "{length} bytes, `{}`", String::from_utf8_lossy(first))?,
        }
        if !self.err.is_empty() {
            write!(f, "; `{}`", self.err.trim_end())?;
        }
        match (self.status, self.signal()) {
            (None, _) => write!(f, "; DID NOT END"),
            (_, Some(signal)) => write!(f, "; signal {signal}"),
            _ => Ok(()),
        }
    }
}

#[derive(Default)]
struct Tally {
    runs: usize,
    different: usize,
}

impl Tally {
    fn one(&mut self, name: &str, ran: Ran, expected: Expected) {
        if self.agrees(name, &ran, &expected) {
            println!("ok         {name}: {ran}");
        }
    }

    /// One line for many runs, with how many had a report.
    fn many(&mut self, name: &str, runs: Vec<(Ran, Expected)>) {
        let different = runs.iter().filter(|(ran, expected)| !self.agrees(name, ran, expected)).count();
        if different == 0 {
            let reports = runs.iter().filter(|(ran, _)| !ran.out.is_empty()).count();
            println!("ok         {name}: {} runs, {reports} with a report", runs.len());
        }
    }

    fn agrees(&mut self, name: &str, ran: &Ran, expected: &Expected) -> bool {
        self.runs += 1;
        let good = ran.meets(expected);
        if !good {
            self.different += 1;
            println!("DIFFERENT  {name}: {ran}\nexpected {expected}");
        }
        good
    }
}

/// When a pipe is closed.
#[derive(PartialEq)]
enum End {
    BeforeStart,
    AfterLastPiece,
    /// Only after the program has ended.
    Never,
}

/// What goes into a pipe: some bytes before the program starts, the rest piece by piece from then on.
struct Feed<'a> {
    blocking: bool,
    first: &'a [u8],
    rest: Vec<&'a [u8]>,
    /// Before each piece.
    pause: Duration,
    end: End,
}

impl<'a> Feed<'a> {
    fn whole(bytes: &'a [u8]) -> Feed<'a> {
        Feed {
            blocking: true,
            first: &[],
            rest: vec![bytes],
            pause: Duration::ZERO,
            end: End::AfterLastPiece,
        }
    }

    fn late(bytes: &'a [u8]) -> Feed<'a> {
        let (first, rest) = bytes.split_at(CUT);
        Feed { blocking: false, first, rest: vec![rest], pause: LATE, end: End::AfterLastPiece }
    }

    /// Puts the pieces into the pipe. A program that reads no further is no failure.
    fn put(self, mut pipe: PipeWriter) -> Option<PipeWriter> {
        for piece in self.rest {
            thread::sleep(self.pause);
            if pipe.write_all(piece).is_err() {
                break;
            }
        }
        (self.end == End::Never).then_some(pipe)
    }
}

/// What a program prints.
enum Prints {
    /// The report of its input.
    Report(Policy),
    /// The list of the MIDI clock's spacings.
    Clock,
}

impl fmt::Display for Prints {
    fn fmt(&self, f: &mut fmt::Formatter) -> fmt::Result {
        match self {
            Prints::Report(policy) => write!(f, "{policy}"),
            Prints::Clock => write!(f, "the MIDI clock"),
        }
    }
}

struct Program {
    path: PathBuf,
    prints: Prints,
    /// How its lines on standard error start.
    read: &'static str,
    write: &'static str,
}

impl Program {
    /// By its name: `hold` is of the hold-on model, `clock` prints its list, any other one is `bench`.
    fn at(path: PathBuf) -> Program {
        let (prints, read, write) = match path.file_name().and_then(|name| name.to_str()) {
            Some("hold") => (Prints::Report(Policy::HoldOn), "hold: read: ", "hold: write: "),
            Some("clock") => (Prints::Clock, "clock: read: ", "clock: write: "),
            _ => (Prints::Report(Policy::Preemptive), "bench: read: ", "bench: write: "),
        };
        Program { path, prints, read, write }
    }

    fn report(&self, file: &[u8]) -> Vec<u8> {
        match self.prints {
            Prints::Report(policy) => report::report(policy, file),
            Prints::Clock => clock::list().into_bytes(),
        }
    }

    fn whole(&self, file: &[u8]) -> Expected {
        Expected::Report(self.report(file))
    }

    fn unread(&self) -> Expected {
        Expected::Failure(self.read)
    }

    fn whole_or_unread(&self, file: &[u8]) -> Expected {
        Expected::Either(self.report(file), self.read)
    }

    fn unwritten(&self) -> Expected {
        Expected::Failure(self.write)
    }

    fn reads(&self, input: File) -> io::Result<Ran> {
        let mut command = collecting(&self.path);
        command.stdin(input);
        run(command)
    }

    fn fed(&self, feed: Feed) -> io::Result<Ran> {
        run_fed(collecting(&self.path), feed)
    }

    /// On an empty input.
    fn writes(&self, output: impl Into<Stdio>) -> io::Result<Ran> {
        let mut command = collecting(&self.path);
        command.stdin(Stdio::null()).stdout(output);
        run(command)
    }

    /// By a shell, which can close what a program is started with; the program is `$0`.
    fn in_shell(&self, script: &str) -> Command {
        let mut command = collecting("sh");
        command.args(["-c", script]).arg(&self.path);
        command
    }
}

fn collecting(program: impl AsRef<Path>) -> Command {
    let mut command = Command::new(program.as_ref());
    command.stdout(Stdio::piped()).stderr(Stdio::piped());
    command
}

fn run_fed(mut command: Command, feed: Feed) -> io::Result<Ran> {
    let (reader, mut writer) = io::pipe()?;
    if feed.blocking {
        command.stdin(reader);
    } else {
        command.stdin(nonblocking(&reader, OpenOptions::new().read(true))?);
    }
    writer.write_all(feed.first)?;
    if feed.end == End::BeforeStart {
        drop(writer);
        return run(command);
    }
    thread::scope(|scope| {
        let feeding = scope.spawn(move || feed.put(writer));
        let ran = run(command);
        // What the feed has left open is closed only now.
        drop(feeding.join());
        ran
    })
}

/// Runs the command to its end, or stops it.
fn run(mut command: Command) -> io::Result<Ran> {
    let mut child = command.spawn()?;
    // A command keeps what it was given open until it is dropped.
    drop(command);
    let out = child.stdout.take().map(collected);
    let err = child.stderr.take().map(collected);
    let status = waited(&mut child)?;
    Ok(Ran { out: joined(out), err: String::from_utf8_lossy(&joined(err)).into_owned(), status })
}

/// All that comes out of a pipe.
fn collected(mut pipe: impl Read + Send + 'static) -> JoinHandle<Vec<u8>> {
    thread::spawn(move || {
        let mut bytes = Vec::new();
        pipe.read_to_end(&mut bytes).expect("a pipe can be read");
        bytes
    })
}

fn joined(reading: Option<JoinHandle<Vec<u8>>>) -> Vec<u8> {
    reading.map_or_else(Vec::new, |reading| reading.join().expect("a pipe can be read"))
}

fn waited(child: &mut Child) -> io::Result<Option<ExitStatus>> {
    let start = Instant::now();
    while start.elapsed() < PATIENCE {
        if let Some(status) = child.try_wait()? {
            return Ok(Some(status));
        }
        thread::sleep(Duration::from_millis(1));
    }
    child.kill()?;
    child.wait()?;
    Ok(None)
}

/// The same end of a pipe, opened anew so that it never waits.
fn nonblocking(pipe: &impl AsRawFd, options: &mut OpenOptions) -> io::Result<File> {
    options.custom_flags(NONBLOCKING).open(format!("/proc/self/fd/{}", pipe.as_raw_fd()))
}

/// A pipe that takes no further byte and never waits.
fn full_pipe() -> io::Result<(PipeReader, File)> {
    let (reader, writer) = io::pipe()?;
    let mut writer = nonblocking(&writer, OpenOptions::new().write(true))?;
    loop {
        match writer.write(&[0; INPUT]) {
            Ok(_) => {}
            Err(error) if error.kind() == ErrorKind::WouldBlock => return Ok((reader, writer)),
            Err(error) => return Err(error),
        }
    }
}

fn unread_pipe() -> io::Result<PipeWriter> {
    let (_, writer) = io::pipe()?;
    Ok(writer)
}

fn at_home(path: &str) -> PathBuf {
    Path::new(env!("CARGO_MANIFEST_DIR")).join(path)
}
