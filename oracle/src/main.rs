//! The oracle: answers frame lines and function lines by the Rust text, makes such lines, and compares programs.

#[cfg(timed)]
mod bench;
mod both;
mod checked;
mod compare;
mod corners;
mod functions;
mod generate;
mod known;
mod means;
mod options;
mod paths;
mod stored;
mod tables;
mod wire;

use options::Options;
use std::io::{self, BufRead, Write};
use std::process::ExitCode;

const USAGE: &str = "usage: oracle frames
       oracle functions
       oracle records
       oracle generate KIND COUNT SEED [NUMBERS]
       oracle compare --program PATH --lines frames|functions|records --kind KIND --count N --seed S [--numbers LIST] [--types LIST]
       oracle list --lines frames|functions|records --kind KIND --count N --seed S [--numbers LIST] [--types LIST] --out DIR
       oracle paths --lines frames|functions|records --kind KIND --count N --seed S [--numbers LIST] [--types LIST]
       oracle corners --program PATH --count N --seed S
       oracle means --program PATH --count N --seed S
       oracle tables --count N --seed S
       oracle bench --kind rings|rings24|disks --count N --seed S [--program PATH]
       oracle once
KIND is rings, disks, bits, limits, damaged, rings24, bits24, limits24, damaged24, faint, faint24, functions or matrices; NUMBERS and LIST are such as 10-17,20-24
--numbers chooses the functions that lines are made for; a frame outside --types (01,02,03) is answered as malformed";

fn answer_lines(answer: impl Fn(&[u8]) -> Vec<u8>) -> io::Result<()> {
    let mut input = io::stdin().lock();
    let mut output = io::BufWriter::new(io::stdout().lock());
    let mut line = Vec::new();
    while input.read_until(b'\n', &mut line)? > 0 {
        if line.last() == Some(&b'\n') {
            line.pop();
        }
        output.write_all(&answer(&line))?;
        output.write_all(b"\n")?;
        line.clear();
    }
    output.flush()
}

fn generate(words: &[String]) -> Result<bool, String> {
    let list = options::list_of_words(words)?;
    let mut output = io::BufWriter::new(io::stdout().lock());
    for index in 0..list.count {
        let mut line = list.line(index);
        line.push(b'\n');
        output.write_all(&line).map_err(say)?;
    }
    output.flush().map_err(say)?;
    Ok(true)
}

fn say(error: impl ToString) -> String {
    error.to_string()
}

/// A check of a program by rendered corners.
fn rendered(words: &[String], check: fn(&str, u64, u64) -> io::Result<bool>) -> Result<bool, String> {
    let options = Options::read(words)?;
    let program = options.need("--program")?;
    check(program, options.whole("--count")?, options.whole("--seed")?).map_err(|error| format!("{program}: {error}"))
}

/// True where the command found nothing wrong.
fn run(words: &[String]) -> Result<bool, String> {
    let Some((command, rest)) = words.split_first() else {
        return Err(USAGE.to_string());
    };
    match command.as_str() {
        "frames" if rest.is_empty() => answer_lines(|line| checked::answer(line).line).map_err(say).map(|()| true),
        "functions" if rest.is_empty() => answer_lines(functions::answer).map_err(say).map(|()| true),
        "records" if rest.is_empty() => answer_lines(|line| checked::record(line).0).map_err(say).map(|()| true),
        "generate" => generate(rest),
        "compare" => {
            let options = Options::read(rest)?;
            let program = options.need("--program")?;
            compare::compare(program, options.lines()?, &options.list()?, &options.served()).map_err(|error| format!("{program}: {error}"))
        }
        "list" => {
            let options = Options::read(rest)?;
            let folder = options.need("--out")?;
            compare::write_list(options.lines()?, &options.list()?, &options.served(), folder).map_err(say).map(|()| true)
        }
        "paths" => {
            let options = Options::read(rest)?;
            compare::paths(options.lines()?, &options.list()?, &options.served());
            Ok(true)
        }
        "corners" => rendered(rest, corners::corners),
        "means" => rendered(rest, means::means),
        "tables" => Options::read(rest).and_then(|options| Ok(tables::tables(options.whole("--count")?, options.whole("--seed")?))),
        #[cfg(timed)]
        "once" if rest.is_empty() => answer_lines(bench::once).map_err(say).map(|()| true),
        #[cfg(timed)]
        "bench" => {
            let options = Options::read(rest)?;
            bench::bench(&options.list()?, options.find("--program"))
        }
        #[cfg(not(timed))]
        "once" | "bench" => Err("built without a library for this machine, so nothing can be timed; the kit makes one for x86-64, tools/native another".to_string()),
        _ => Err(USAGE.to_string()),
    }
}

fn main() -> ExitCode {
    let words: Vec<String> = std::env::args().skip(1).collect();
    match run(&words) {
        Ok(true) => ExitCode::SUCCESS,
        Ok(false) => ExitCode::from(1),
        Err(sentence) => {
            eprintln!("oracle: {sentence}");
            ExitCode::from(2)
        }
    }
}
