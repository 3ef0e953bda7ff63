//! Times two builds of the proved library and its programs by turns, and counts their instructions.
//! Not a test: no figure decides anything.
//!
//! usage: before_after BEFORE NOW
//!        before_after calls LIBRARY SCHEME LABEL TIMES
//!
//! BEFORE and NOW are `target` folders with `staticlib/libfirmware.a` and `bin/`. The second form reads
//! one label so many times through a shared library, for the first one's count of instructions.

use distelhut_host::generate::labels::lawful;
use distelhut_host::generate::Source;
use distelhut_host::papers::table_of;
use distelhut_host::scheme::Scheme;
use std::collections::BTreeSet;
use std::ffi::{c_char, c_int, c_void, CString};
use std::fs::{self, File};
use std::hint::black_box;
use std::io;
use std::path::{Path, PathBuf};
use std::process::{Command, ExitCode, Stdio};
use std::time::{Duration, Instant};

/// How many calls make a run, and how many runs a figure is the median of.
const CALLS: u32 = 200;
const CALL_RUNS: usize = 1001;
const PROGRAM_RUNS: usize = 101;

/// How many labels are made to choose one from.
const CANDIDATES: usize = 200_000;

type Read = unsafe extern "C" fn(u32, *const u8, usize, *mut u8, usize) -> u32;

extern "C" {
    fn dlopen(name: *const c_char, flags: c_int) -> *mut c_void;
    fn dlsym(library: *mut c_void, name: *const c_char) -> *mut c_void;
}

/// The reading function of a shared library, which stays loaded.
fn read_of(library: &Path) -> io::Result<Read> {
    let name = CString::new(library.to_string_lossy().as_bytes())?;
    // 2 is RTLD_NOW
    let function = unsafe {
        let library = dlopen(name.as_ptr(), 2);
        if library.is_null() {
            return Err(io::Error::other("the library does not load"));
        }
        dlsym(library, c"distelhut_read".as_ptr())
    };
    if function.is_null() {
        return Err(io::Error::other("the library has no distelhut_read"));
    }
    Ok(unsafe { std::mem::transmute::<*mut c_void, Read>(function) })
}

/// A shared library made of a build's archive.
fn shared(target: &Path, name: &str, folder: &Path) -> io::Result<PathBuf> {
    let library = folder.join(name);
    let archive = target.join("staticlib/libfirmware.a");
    let made = Command::new("gcc")
        .args(["-shared", "-Wl,--whole-archive"])
        .arg(archive)
        .args(["-Wl,--no-whole-archive", "-o"])
        .arg(&library)
        .status()?;
    if made.success() {
        Ok(library)
    } else {
        Err(io::Error::other("gcc failed"))
    }
}

/// Reads a label so many times.
fn read_times(read: Read, scheme: u32, label: &[u8], times: u32) {
    let mut text = [0; 252];
    for _ in 0..times {
        let label = black_box(label);
        black_box(unsafe {
            read(scheme, label.as_ptr(), label.len(), text.as_mut_ptr(), text.len())
        });
    }
}

/// The middle one of some times.
fn median(mut times: Vec<Duration>) -> Duration {
    times.sort();
    times[times.len() / 2]
}

/// The lawful label of this length with the most different characters among many.
fn spread_label(scheme: Scheme, length: usize) -> Vec<u8> {
    let mut source = Source::new(1);
    (0..CANDIDATES)
        .map(|_| lawful(&mut source, scheme))
        .filter(|label| label.len() == length)
        .max_by_key(|label| label.iter().collect::<BTreeSet<_>>().len())
        .expect("some label has this length")
}

/// The labels that are read: short, of middle length, and the longest.
fn labels() -> Vec<(Scheme, Vec<u8>)> {
    vec![
        (Scheme::AltDude, b"3n".to_vec()),
        (Scheme::AltDude, b"vsvpvd7hypuivf4q".to_vec()),
        (Scheme::AltDude, spread_label(Scheme::AltDude, 63)),
        (Scheme::Lace, b"lq--74apy".to_vec()),
        (Scheme::Lace, spread_label(Scheme::Lace, 16)),
        (Scheme::Lace, spread_label(Scheme::Lace, 62)),
    ]
}

/// The instructions that reading a label takes: what a thousand more readings add, a thousandth of it.
fn instructions(library: &Path, scheme: u32, label: &[u8]) -> io::Result<u64> {
    let counted = |times: &str| -> io::Result<u64> {
        let output = Command::new("valgrind")
            .args(["--tool=callgrind", "--callgrind-out-file=/dev/null"])
            .arg(std::env::current_exe()?)
            .arg("calls")
            .arg(library)
            .arg(scheme.to_string())
            .arg(String::from_utf8_lossy(label).as_ref())
            .arg(times)
            .output()?;
        let words = String::from_utf8_lossy(&output.stderr).into_owned();
        let count = words.lines().find_map(|line| line.split("Collected : ").nth(1));
        let count = count.and_then(|count| count.trim().parse().ok());
        count.ok_or_else(|| io::Error::other("valgrind counted nothing"))
    };
    Ok((counted("2000")? - counted("1000")?) / 1000)
}

/// Prints the row of one label: nanoseconds and instructions of a reading, before and now.
fn print_read(libraries: &[PathBuf; 2], scheme: Scheme, label: &[u8]) -> io::Result<()> {
    let reads = [read_of(&libraries[0])?, read_of(&libraries[1])?];
    let mut times = [Vec::new(), Vec::new()];
    for _ in 0..CALL_RUNS {
        for (read, times) in reads.iter().zip(&mut times) {
            let start = Instant::now();
            read_times(*read, scheme.number(), label, CALLS);
            times.push(start.elapsed());
        }
    }
    let [before, now] = times.map(|times| median(times).as_nanos() as f64 / f64::from(CALLS));
    let counts = [
        instructions(&libraries[0], scheme.number(), label)?,
        instructions(&libraries[1], scheme.number(), label)?,
    ];
    println!(
        "| `{}` | {} | {before:.0} | {now:.0} | {:.2} | {} | {} | {:.2} |",
        String::from_utf8_lossy(label),
        label.len(),
        now / before,
        counts[0],
        counts[1],
        counts[1] as f64 / counts[0] as f64
    );
    Ok(())
}

/// The time of a run of a program on a file, its output dropped.
fn program_run(program: &Path, input: &Path) -> io::Result<Duration> {
    let mut command = Command::new(program);
    command.stdin(File::open(input)?).stdout(Stdio::null());
    let start = Instant::now();
    command.status()?;
    Ok(start.elapsed())
}

/// Prints the row of one program: lines a second, before and now, and whether both print the same.
fn print_program(targets: &[PathBuf; 2], name: &str, input: &Path, lines: usize) -> io::Result<()> {
    let programs = [targets[0].join("bin").join(name), targets[1].join("bin").join(name)];
    let printed = |program: &Path| -> io::Result<Vec<u8>> {
        Ok(Command::new(program).stdin(File::open(input)?).output()?.stdout)
    };
    if printed(&programs[0])? != printed(&programs[1])? {
        return Err(io::Error::other("the two builds print different lines"));
    }
    let mut times = [Vec::new(), Vec::new()];
    for _ in 0..PROGRAM_RUNS {
        for (program, times) in programs.iter().zip(&mut times) {
            times.push(program_run(program, input)?);
        }
    }
    let [before, now] = times.map(|times| lines as f64 / median(times).as_secs_f64());
    println!("| `{name}` | {lines} | {before:.0} | {now:.0} | {:.1} |", now / before);
    Ok(())
}

/// Writes the two inputs of the programs: the longest table of 01's form, and labels one a line.
fn inputs(folder: &Path) -> io::Result<[PathBuf; 2]> {
    let mut source = Source::new(1);
    let mut entry = |reader| {
        let scheme = source.pick(&[Scheme::AltDude, Scheme::Lace]);
        (scheme.kind(), reader, lawful(&mut source, scheme))
    };
    let table = folder.join("table");
    fs::write(&table, table_of(&(1..=500).map(&mut entry).collect::<Vec<_>>()))?;
    let mut source = Source::new(1);
    let mut lines = Vec::new();
    for _ in 0..200_000 {
        lines.extend(lawful(&mut source, Scheme::Lace));
        lines.push(b'\n');
    }
    let labels = folder.join("labels");
    fs::write(&labels, lines)?;
    Ok([table, labels])
}

/// Prints both tables.
fn print(targets: [PathBuf; 2], folder: &Path) -> io::Result<()> {
    let libraries =
        [shared(&targets[0], "before.so", folder)?, shared(&targets[1], "now.so", folder)?];
    println!("| label read | bytes | before, ns | now, ns | ratio | before, instructions | now, instructions | ratio |");
    println!("|---|---|---|---|---|---|---|---|");
    for (scheme, label) in labels() {
        print_read(&libraries, scheme, &label)?;
    }
    let [table, labels] = inputs(folder)?;
    println!("\n| program | lines | before, lines a second | now, lines a second | ratio |");
    println!("|---|---|---|---|---|");
    print_program(&targets, "nametable_list", &table, 500)?;
    print_program(&targets, "bench_list", &labels, 200_000)
}

fn run(words: &[String]) -> io::Result<()> {
    if let [call, library, scheme, label, times] = words {
        if call == "calls" {
            let number = |word: &str| word.parse().map_err(io::Error::other);
            let read = read_of(Path::new(library))?;
            read_times(read, number(scheme)?, label.as_bytes(), number(times)?);
            return Ok(());
        }
    }
    let [before, now] = words else {
        return Err(io::Error::other("usage: before_after BEFORE NOW"));
    };
    let folder = std::env::temp_dir().join(format!("distelhut-{}", std::process::id()));
    fs::create_dir(&folder)?;
    let printed = print([before.into(), now.into()], &folder);
    fs::remove_dir_all(&folder)?;
    printed
}

fn main() -> ExitCode {
    match run(&std::env::args().skip(1).collect::<Vec<_>>()) {
        Ok(()) => ExitCode::SUCCESS,
        Err(error) => {
            eprintln!("before_after: {error}");
            ExitCode::FAILURE
        }
    }
}
