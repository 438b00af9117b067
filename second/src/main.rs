//! A second reading of document 01, as 02 amends it: it judges the same calls as the proved program, so that the two can be held together.

mod answer;
#[cfg(test)]
mod bundles;
mod capture;
mod captures;
mod dispatch;
mod draft;
mod event;
mod faults;
mod flags;
mod gen;
mod image;
#[cfg(test)]
mod ipv6;
mod judge;
mod layers;
mod matching;
mod modem;
#[cfg(test)]
mod naming;
mod pace;
mod random;
mod reach;
#[cfg(test)]
mod readings;
mod recording;
mod records;
mod replay;
#[cfg(test)]
mod replaying;
mod rewrite;
mod setting;
#[cfg(test)]
mod sockets;
mod stream;
mod table;
mod table_t;
mod terminal;
#[cfg(test)]
mod worked;
mod world;

use std::io::{self, BufReader, BufWriter, StdinLock, StdoutLock, Write};
use std::path::Path;
use std::process::ExitCode;

const BUFFER: usize = 1 << 16;
type Input = BufReader<StdinLock<'static>>;
type Output = BufWriter<StdoutLock<'static>>;

fn main() -> ExitCode {
    let arguments: Vec<String> = std::env::args().skip(1).collect();
    let words: Vec<&str> = arguments.iter().map(String::as_str).collect();
    let done = match words[..] {
        ["run"] => piped(stream::run),
        ["recording"] => piped(recording::stream),
        ["flags"] => piped(|_, output| flags::page(output)),
        ["replay"] => piped(|input, output| replay::lines(input, output)),
        ["rewrite", order, precision] => match rewrite::form(order, precision) {
            Some(form) => piped(|input, output| rewrite::rewrite(input, form, output)),
            None => return usage(),
        },
        ["captures", seed, count, directory] => match (seed.parse(), count.parse()) {
            (Ok(seed), Ok(count)) => captures(seed, count, Path::new(directory)),
            _ => return usage(),
        },
        ["gen", seed, calls] => match (seed.parse(), calls.parse()) {
            (Ok(seed), Ok(calls)) => gen(seed, calls),
            _ => return usage(),
        },
        ["pace", ref scene @ .., times, step] => match (pace::scene(scene), times.parse(), step.parse()) {
            (Some(scene), Ok(times), Ok(step)) => pace(&scene, times, step),
            _ => return usage(),
        },
        _ => return usage(),
    };
    match done {
        Ok(code) => code,
        Err(error) => {
            eprintln!("second: {error}");
            ExitCode::FAILURE
        }
    }
}

/// From standard input to standard output, both by parts.
fn piped(make: impl FnOnce(&mut Input, &mut Output) -> io::Result<()>) -> io::Result<ExitCode> {
    let mut input = BufReader::with_capacity(BUFFER, io::stdin().lock());
    let mut output = BufWriter::with_capacity(BUFFER, io::stdout().lock());
    make(&mut input, &mut output)?;
    output.flush()?;
    Ok(ExitCode::SUCCESS)
}

/// A long enough stream that misses something it should reach is a failure.
fn gen(seed: u64, calls: u64) -> io::Result<ExitCode> {
    let output = BufWriter::with_capacity(BUFFER, io::stdout().lock());
    let complete = gen::generate(seed, calls, output)?;
    Ok(if complete || calls < gen::ENOUGH { ExitCode::SUCCESS } else { ExitCode::FAILURE })
}

/// The same of captures.
fn captures(seed: u64, count: u64, directory: &Path) -> io::Result<ExitCode> {
    let complete = captures::write(seed, count, directory)?;
    Ok(if complete || count < captures::ENOUGH { ExitCode::SUCCESS } else { ExitCode::FAILURE })
}

fn pace(scene: &pace::Scene, times: u32, step: u32) -> io::Result<ExitCode> {
    let mut output = BufWriter::with_capacity(BUFFER, io::stdout().lock());
    scene.write(times, step, &mut output)?;
    Ok(ExitCode::SUCCESS)
}

fn usage() -> ExitCode {
    eprintln!("second run < stream > lines\nsecond recording < capture > stream\nsecond gen SEED N > stream");
    eprintln!("second replay < capture > lines\nsecond captures SEED N DIRECTORY\nsecond flags > page");
    eprintln!("second rewrite big|little micro|nano < capture > capture");
    eprintln!("second pace SCENE TIMES STEP > stream, SCENE one of worked, last, none, held, both, six, chain,");
    eprintln!("  message, bundle, codes, dearest,");
    eprintln!(
        "  grow RULES HELD LENGTH, or check NAME, NAME one of worked, ports, tracked, empty, full, ipv6, nothing"
    );
    ExitCode::from(2)
}
