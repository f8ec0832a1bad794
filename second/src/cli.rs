//! The command line: reading it, and printing what a comparison found.

use crate::compare::{self, Config, Report, DEFAULT_CALLS, SECTIONS};
use crate::corpus;
use crate::store::{Second, Store};
use std::io::{self, Read, Write};
use std::path::Path;
use std::time::{Duration, Instant};

const HELP: &str = "\
The independent second program of Bawnaroy.

second compare [--self] [--calls N] [--seed S] [--section NAME] [--trace]
    Runs random histories over the library and the second program and compares
    answers and whole buffers after every call.
    --self          compare the second program with itself (needs no library)
    --calls N       about how many calls to make (236000)
    --seed S        what to draw from (1); the same seed draws the same calls
    --section NAME  one of plain, honest, flipped, replayed, desks, paths,
                    entries, book, tap; what wasn't reached is then no failure
    --trace         tell of every call on standard error before it is made

second tap-corpus FOLDER
    Reads every text FOLDER/*.tap through a store and compares what it says
    with the file .expected beside it; writes what was read and reads it again.

second tap-written FOLDER [--make]
    Writes the text of every list of records FOLDER/*.records and compares it
    with the file .tap beside it, or makes that file.

second tap-read N
    Reads a text for a range of N ids from standard input and prints what it
    says, in the form of the files .expected.

second bench
    Times digest, cipher and whole requests and prints tables.

The library takes part if this program was built with the feature `library`
and BAWNAROY_LIB naming the folder of libexports.a.
";

/// Runs the command line; hands back the exit status.
pub fn run(arguments: &[String]) -> u8 {
    let words: Vec<&str> = arguments.iter().map(String::as_str).collect();
    match words.split_first() {
        Some((&"compare", rest)) => match Options::read(rest) {
            Ok(options) => compare(&options),
            Err(what) => misused(&what),
        },
        Some((&"tap-corpus", [folder])) => told(corpus::texts_command(Path::new(folder))),
        Some((&"tap-written", [folder])) => written(folder, false),
        Some((&"tap-written", [folder, "--make"])) => written(folder, true),
        Some((&"tap-read", [count])) => told(tap_read(count)),
        Some((&"bench", [])) => {
            crate::bench::run(&sides());
            0
        }
        Some((&("--help" | "-h" | "help"), [])) => {
            print!("{HELP}");
            0
        }
        _ => misused("no such command; `--help` tells of those that there are"),
    }
}

fn misused(what: &str) -> u8 {
    eprintln!("second: {what}");
    2
}

/// The exit status of a command, or why it couldn't be run.
fn told(result: Result<u8, String>) -> u8 {
    result.unwrap_or_else(|what| misused(&what))
}

fn written(folder: &str, make: bool) -> u8 {
    told(corpus::written_command(Path::new(folder), make))
}

fn tap_read(count: &str) -> Result<u8, String> {
    let range = count
        .parse()
        .ok()
        .filter(|count| (1..=4096).contains(count));
    let count: u16 = range.ok_or(format!("no range has {count} ids"))?;
    let mut text = Vec::new();
    let read = io::stdin().read_to_end(&mut text);
    read.map_err(|error| format!("standard input: {error}"))?;
    let outcome = corpus::outcome(&text, count).told(count);
    let written = io::stdout().write_all(&outcome);
    written.map_err(|error| format!("standard output: {error}"))?;
    Ok(0)
}

struct Options {
    own: bool,
    help: bool,
    config: Config,
}

impl Options {
    fn read(words: &[&str]) -> Result<Options, String> {
        let config = Config {
            seed: 1,
            calls: DEFAULT_CALLS,
            section: None,
            trace: false,
        };
        let mut options = Options {
            own: false,
            help: false,
            config,
        };
        let mut words = words.iter();
        while let Some(word) = words.next() {
            let mut value = || words.next().ok_or(format!("{word} needs a value"));
            match *word {
                "--self" => options.own = true,
                "--trace" => options.config.trace = true,
                "--help" | "-h" => options.help = true,
                "--calls" => options.config.calls = number(value()?)?,
                "--seed" => options.config.seed = number(value()?)?,
                "--section" => options.config.section = Some(section(value()?)?),
                _ => return Err(format!("unknown option {word}")),
            }
        }
        Ok(options)
    }
}

fn number(word: &str) -> Result<u64, String> {
    word.parse().map_err(|_| format!("not a number: {word}"))
}

fn section(word: &str) -> Result<String, String> {
    let known = SECTIONS.iter().any(|section| section.name == word);
    known
        .then(|| word.to_string())
        .ok_or(format!("no section {word}"))
}

/// The library, if it was built in.
#[cfg(feature = "library")]
fn library() -> Option<&'static dyn Store> {
    Some(&crate::library::Library)
}

#[cfg(not(feature = "library"))]
fn library() -> Option<&'static dyn Store> {
    None
}

/// What a benchmark times, by name.
fn sides() -> Vec<(&'static str, &'static dyn Store)> {
    let mut sides: Vec<(&str, &dyn Store)> = vec![("second", &Second)];
    sides.extend(library().map(|library| ("library", library)));
    sides
}

fn compare(options: &Options) -> u8 {
    if options.help {
        print!("{HELP}");
        return 0;
    }
    let tested = if options.own {
        Some(&Second as &dyn Store)
    } else {
        library()
    };
    let Some(tested) = tested else {
        return misused("built without the feature `library`; only `compare --self` can run");
    };
    let mut last = Instant::now();
    let report = compare::run(&options.config, tested, &mut |section, calls| {
        if last.elapsed() > Duration::from_secs(10) {
            eprintln!("second: compare: {section}: {calls} calls so far");
            last = Instant::now();
        }
    });
    print_report(options, &report)
}

fn print_report(options: &Options, report: &Report) -> u8 {
    let Config { seed, calls, .. } = options.config;
    for ((group, name), count) in report.tally.counts() {
        println!("second: compare: {group}: {name}: {count}");
    }
    println!("second: compare: {} calls, seed {seed}", report.calls);
    let (mut passed, mut failed) = (0, 0);
    let mut tell = |name: &str, fine: bool| {
        let verdict = if fine { "ok" } else { "FAILED" };
        println!("second: compare: {name} .. {verdict}");
        *(if fine { &mut passed } else { &mut failed }) += 1;
    };
    for (name, result) in &report.sections {
        tell(name, result.is_ok());
        if let Err(mismatch) = result {
            let own = if options.own { " --self" } else { "" };
            println!("second: compare: {name}: seed {seed}, {mismatch}");
            println!(
                "second: compare: again with: \
                 second compare{own} --seed {seed} --calls {calls} --section {name}"
            );
        }
    }
    if options.config.section.is_none() {
        let unreached = report.tally.unreached();
        tell("everything reached", unreached.is_empty());
        for (group, name) in unreached {
            println!("second: compare: never reached: {group}: {name}");
        }
    }
    println!("{passed} passed, {failed} failed");
    u8::from(failed > 0)
}
