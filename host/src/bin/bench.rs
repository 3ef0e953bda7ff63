//! Times the exported functions beside the independent ones, and the programs.
//! Not a test: no figure decides anything.

use distelhut_host::functions::{Implementation, INDEPENDENT};
use distelhut_host::generate::labels::lawful;
use distelhut_host::generate::Source;
use distelhut_host::papers::{table_of, KANA};
use distelhut_host::scheme::Scheme;
use distelhut_host::{c_interface, proved, utf16};
use std::fs::{self, File};
use std::hint::black_box;
use std::io;
use std::path::{Path, PathBuf};
use std::process::{Command, ExitCode, Stdio};
use std::time::{Duration, Instant};

/// How many calls make a run: few, so that most runs are not interrupted.
const CALLS: u32 = 200;

/// How many runs of calls a figure is the median of.
const CALL_RUNS: usize = 1001;

/// How many runs of a table, read or received, a figure is the median of.
const TABLE_RUNS: usize = 101;

/// How many runs of a program a figure is the median of.
const PROGRAM_RUNS: usize = 15;

/// How many entries the listed table has: the most that one can have.
const ENTRIES: u16 = 500;

/// How many lines the bench list is given.
const LINES: usize = 200_000;

/// The folder of the proved programs.
const PROGRAMS: &str = concat!(env!("CARGO_MANIFEST_DIR"), "/../target/bin");

/// A name to write and read under a scheme.
struct Name {
    about: &'static str,
    scheme: Scheme,
    text: Vec<u8>,
    label: Vec<u8>,
}

/// A name of these points, with its bytes and its label.
fn name(about: &'static str, scheme: Scheme, points: &[u32]) -> Name {
    let units = utf16::units_of(points).expect("the names have points only");
    let text: Vec<u8> = units.iter().flat_map(|unit| unit.to_be_bytes()).collect();
    let mut buffer = [0; 63];
    let count = scheme.encode(points, &mut buffer).expect("each name has a label");
    Name { about, scheme, text, label: buffer[..count].to_vec() }
}

/// The names that are timed: short, of middle length, and with the longest labels.
fn names() -> Vec<Name> {
    vec![
        name("AltDUDE, U+00FC", Scheme::AltDude, &[0xFC]),
        name("AltDUDE, 7 kana", Scheme::AltDude, &KANA),
        name("AltDUDE, 63 times U+0061", Scheme::AltDude, &[0x61; 63]),
        name("LACE, U+00FC", Scheme::Lace, &[0xFC]),
        name("LACE, 7 kana", Scheme::Lace, &KANA),
        name("LACE, 34 times U+0431", Scheme::Lace, &[0x431; 34]),
    ]
}

/// A function of the C interface.
type CFunction = fn(u32, &[u8], &mut [u8]) -> u32;

/// The time of a run of calls.
fn run(function: CFunction, scheme: u32, given: &[u8], buffer: &mut [u8]) -> Duration {
    let start = Instant::now();
    for _ in 0..CALLS {
        black_box(function(scheme, black_box(given), buffer));
    }
    start.elapsed()
}

/// The middle one of some times.
fn median(mut times: Vec<Duration>) -> Duration {
    times.sort();
    times[times.len() / 2]
}

/// Prints the nanoseconds of a call, exported and independent, run by turns.
fn print_calls(about: &str, name: &Name, given: &[u8], capacity: usize, functions: [CFunction; 2]) {
    let mut buffer = vec![0; capacity];
    let mut times = [Vec::new(), Vec::new()];
    for _ in 0..CALL_RUNS {
        for (function, times) in functions.iter().zip(&mut times) {
            times.push(run(*function, name.scheme.number(), given, &mut buffer));
        }
    }
    let [exported, independent] = times.map(|times| median(times).as_nanos() / u128::from(CALLS));
    println!(
        "| {about}, {} | {} | {} | {exported} | {independent} |",
        name.about,
        name.text.len(),
        name.label.len()
    );
}

/// A table with as many entries as there can be, under both schemes.
fn long_table() -> Vec<u8> {
    let mut source = Source::new(1);
    let mut entry = |reader| {
        let scheme = source.pick(&[Scheme::AltDude, Scheme::Lace]);
        (scheme.kind(), reader, lawful(&mut source, scheme))
    };
    table_of(&(1..=ENTRIES).map(&mut entry).collect::<Vec<_>>())
}

/// The time of a call on a table, which must be done and answer its number of entries.
fn table_run(call: impl FnOnce(&mut [u64])) -> Duration {
    let mut answer = [0; 5];
    let start = Instant::now();
    call(&mut answer);
    let time = start.elapsed();
    assert_eq!(answer, [0, 0, ENTRIES.into(), 0, 0], "the table is in order");
    time
}

/// Prints the nanoseconds of a call for each byte of a table, exported and independent,
/// run by turns.
fn print_table(about: &str, bytes: usize, call: impl Fn(&Implementation, &mut [u64])) {
    let mut times = [Vec::new(), Vec::new()];
    for _ in 0..TABLE_RUNS {
        for (one, times) in [proved::PROVED, INDEPENDENT].iter().zip(&mut times) {
            times.push(table_run(|answer| call(one, answer)));
        }
    }
    let [exported, independent] = times.map(|times| median(times).as_nanos() as f64 / bytes as f64);
    println!("| {about} | {bytes} | {exported:.1} | {independent:.1} |");
}

/// Prints what reading a table at once takes, and receiving it in chunks.
fn print_tables(table: &[u8]) {
    let bytes = table.len();
    print_table("read at once", bytes, |one, answer| {
        (one.table_read)(black_box(table), 0, &mut [], answer);
    });
    for (about, step) in [("in one chunk", bytes), ("in chunks of 67", 67), ("in chunks of 1", 1)] {
        let lengths = vec![step; bytes.div_ceil(step)];
        print_table(&format!("received {about}"), bytes, |one, answer| {
            (one.receive)(black_box(&lengths), black_box(table), answer);
        });
    }
}

/// Lines with a lawful LACE label each.
fn label_lines() -> Vec<u8> {
    let mut source = Source::new(1);
    let mut lines = Vec::new();
    for _ in 0..LINES {
        lines.extend(lawful(&mut source, Scheme::Lace));
        lines.push(b'\n');
    }
    lines
}

/// A program's command on a file of input.
fn command(program: &Path, input: &Path) -> io::Result<Command> {
    let mut command = Command::new(program);
    command.stdin(File::open(input)?);
    Ok(command)
}

/// The time of a run of a program, from its start to its end, its output dropped.
fn program_run(program: &Path, input: &Path) -> io::Result<Duration> {
    let mut command = command(program, input)?;
    let start = Instant::now();
    command.stdout(Stdio::null()).status()?;
    Ok(start.elapsed())
}

/// How many lines a program prints, those of refusals left out.
fn lines_printed(program: &Path, input: &Path) -> io::Result<usize> {
    let output = command(program, input)?.output()?.stdout;
    let lines = output.split_inclusive(|&byte| byte == b'\n');
    Ok(lines.filter(|line| !line.starts_with(b"refused")).count())
}

/// The lines a second of a program on an input of so many lines.
fn lines_a_second(program: &Path, input: &Path, lines: usize) -> io::Result<u64> {
    let printed = lines_printed(program, input)?;
    if printed != lines {
        return Err(io::Error::other(format!("{printed} lines, and not {lines}")));
    }
    let times: io::Result<Vec<Duration>> =
        (0..PROGRAM_RUNS).map(|_| program_run(program, input)).collect();
    Ok((lines as f64 / median(times?).as_secs_f64()) as u64)
}

/// Prints the lines a second of a program, if it was built.
fn print_program(name: &str, input: &[u8], lines: usize) -> io::Result<()> {
    let program = Path::new(PROGRAMS).join(name);
    if !program.exists() {
        println!("| {name} | {lines} | not built |");
        return Ok(());
    }
    let file = input_file(name);
    fs::write(&file, input)?;
    let rate = lines_a_second(&program, &file, lines);
    fs::remove_file(&file)?;
    println!("| {name} | {lines} | {} |", rate?);
    Ok(())
}

/// Where a program's input stands while it is timed.
fn input_file(name: &str) -> PathBuf {
    std::env::temp_dir().join(format!("distelhut-{name}-{}", std::process::id()))
}

/// Prints the three tables.
fn print() -> io::Result<()> {
    println!("Medians of {CALL_RUNS} runs of {CALLS} calls, buffers not cleared between calls.\n");
    println!("| call | text bytes | label bytes | exported, ns | independent, ns |");
    println!("|---|---|---|---|---|");
    for name in names() {
        print_calls("write", &name, &name.text, 63, [proved::write, c_interface::write]);
        print_calls("read", &name, &name.label, 252, [proved::read, c_interface::read]);
    }
    println!("\nMedians of {TABLE_RUNS} calls on a name table.\n");
    println!("| call | table bytes | exported, ns a byte | independent, ns a byte |");
    println!("|---|---|---|---|");
    print_tables(&long_table());
    println!(
        "\nMedians of {PROGRAM_RUNS} runs, from a program's start to its end, output dropped.\n"
    );
    println!("| program | lines | lines a second |");
    println!("|---|---|---|");
    print_program("nametable_list", &long_table(), usize::from(ENTRIES))?;
    print_program("bench_list", &label_lines(), LINES)
}

fn main() -> ExitCode {
    match print() {
        Ok(()) => ExitCode::SUCCESS,
        Err(error) => {
            eprintln!("bench: {error}");
            ExitCode::FAILURE
        }
    }
}
