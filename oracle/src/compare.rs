//! Runs a program on a list of lines and compares its answers with the oracle's, line by line.

use crate::checked;
use crate::functions;
use crate::generate::List;
use crate::paths::Paths;
use std::io::{self, BufRead, BufReader, BufWriter, Write};
use std::process::{Child, ChildStdout, Command, Stdio};
use std::thread::JoinHandle;
use std::time::{Duration, Instant};

#[derive(Clone, Copy, PartialEq)]
pub enum Lines {
    Frames,
    Functions,
    /// Ring frames, answered as jb_ring_record answers their values.
    Records,
}

/// The frame types that the compared program serves: a line of another is answered as a malformed one.
#[derive(Clone)]
pub struct Served {
    pub types: Vec<String>,
}

impl Served {
    fn frame(&self, line: &[u8]) -> bool {
        line.len() < 2 || self.types.iter().any(|kind| line.starts_with(kind.as_bytes()))
    }
}

/// Answers lines and remembers the ways they went.
pub struct Oracle {
    lines: Lines,
    served: Served,
    pub paths: Paths,
}

impl Oracle {
    pub fn new(lines: Lines, served: &Served) -> Self {
        Self { lines, served: served.clone(), paths: Paths::default() }
    }

    pub fn answer(&mut self, line: &[u8]) -> Vec<u8> {
        match self.lines {
            Lines::Functions => {
                let (text, told) = functions::answered(line);
                told.eliminated.iter().for_each(|counts| self.paths.elimination(counts));
                told.known.iter().for_each(|known| self.paths.known("", known));
                told.ring.iter().for_each(|counts| self.paths.record("ring: ", counts));
                told.stored.iter().for_each(|told| self.paths.stored(told));
                text
            }
            Lines::Records => {
                let (text, outcome) = checked::record(line);
                outcome.iter().for_each(|outcome| self.paths.note(outcome));
                text
            }
            Lines::Frames if !self.served.frame(line) => checked::malformed(),
            Lines::Frames => {
                let answered = checked::answer(line);
                self.paths.note(&answered.outcome);
                answered.line
            }
        }
    }
}

/// A line on standard error now and then, so that a long run shows that it lives.
pub struct Progress {
    start: Instant,
    shown: Instant,
    count: u64,
}

impl Progress {
    pub fn new(count: u64) -> Self {
        Self { start: Instant::now(), shown: Instant::now(), count }
    }

    pub fn at(&mut self, done: u64) {
        if self.shown.elapsed() > Duration::from_secs(10) {
            self.shown = Instant::now();
            eprintln!("oracle: {done} of {} lines, {} s", self.count, self.start.elapsed().as_secs());
        }
    }

    pub fn seconds(&self) -> f64 {
        self.start.elapsed().as_secs_f64()
    }
}

const SHOWN: u64 = 5;

struct Tally {
    differences: u64,
}

impl Tally {
    fn differ(&mut self, index: u64, line: &[u8], oracle: Option<&[u8]>, program: Option<&[u8]>) {
        self.differences += 1;
        if self.differences > SHOWN {
            return;
        }
        let text = |answer: Option<&[u8]>| answer.map_or("(no line)".into(), |a| String::from_utf8_lossy(a).into_owned());
        println!("line {}: {}", index + 1, String::from_utf8_lossy(line));
        println!("  oracle:  {}", text(oracle));
        println!("  program: {}", text(program));
    }
}

/// The writer makes the lines by itself and never waits for the comparison, so a program that reads everything
/// before it answers, or stops early, can not block the two.
fn feed(lines: impl Iterator<Item = Vec<u8>> + Send + 'static, child: &mut Child) -> JoinHandle<()> {
    let input = child.stdin.take().expect("a pipe");
    std::thread::spawn(move || {
        let mut input = BufWriter::with_capacity(1 << 16, input);
        for mut line in lines {
            line.push(b'\n');
            if input.write_all(&line).is_err() {
                // The program has gone; the missing answers are counted by the reader.
                return;
            }
        }
        let _ = input.flush();
    })
}

/// A program that is answering lines.
pub struct Running {
    child: Child,
    writer: JoinHandle<()>,
    output: BufReader<ChildStdout>,
}

impl Running {
    /// `program` is a command with its words.
    pub fn start(program: &str, lines: impl Iterator<Item = Vec<u8>> + Send + 'static) -> io::Result<Self> {
        let mut words = program.split_whitespace();
        let mut command = Command::new(words.next().unwrap_or_default());
        let mut child = command.args(words).stdin(Stdio::piped()).stdout(Stdio::piped()).spawn()?;
        let writer = feed(lines, &mut child);
        let output = BufReader::with_capacity(1 << 16, child.stdout.take().expect("a pipe"));
        Ok(Self { child, writer, output })
    }

    /// The next answer, without its line feed. A last line that lacks it is marked, and so differs.
    pub fn next_answer(&mut self) -> io::Result<Option<Vec<u8>>> {
        let mut answer = Vec::new();
        if self.output.read_until(b'\n', &mut answer)? == 0 {
            return Ok(None);
        }
        if answer.pop() != Some(b'\n') {
            answer.extend_from_slice(b" (without a line feed)");
        }
        Ok(Some(answer))
    }

    /// True where the program ended well. What it still writes is read and of no account.
    pub fn end(mut self) -> io::Result<bool> {
        io::copy(&mut self.output, &mut io::sink())?;
        self.writer.join().expect("the writer ends");
        let status = self.child.wait()?;
        if !status.success() {
            println!("the program ended with {status}");
        }
        Ok(status.success())
    }
}

/// True where nothing differs and the program ended well.
pub fn compare(program: &str, lines: Lines, list: &List, served: &Served) -> io::Result<bool> {
    let made = list.clone();
    let mut running = Running::start(program, (0..list.count).map(move |index| made.line(index)))?;
    let (mut oracle, mut tally) = (Oracle::new(lines, served), Tally { differences: 0 });
    let mut progress = Progress::new(list.count);
    for index in 0..list.count {
        let line = list.line(index);
        let (ours, theirs) = (oracle.answer(&line), running.next_answer()?);
        if Some(&ours) != theirs.as_ref() {
            tally.differ(index, &line, Some(&ours), theirs.as_deref());
        }
        progress.at(index + 1);
    }
    let mut extra = list.count;
    while let Some(answer) = running.next_answer()? {
        tally.differ(extra, b"(none)", None, Some(&answer));
        extra += 1;
    }
    println!("{:>12}  lines compared, in {:.1} s", list.count, progress.seconds());
    println!("{:>12}  differences", tally.differences);
    oracle.paths.print();
    Ok(running.end()? && tally.differences == 0)
}

/// The oracle alone: the ways a list goes, and how fast.
pub fn paths(lines: Lines, list: &List, served: &Served) {
    let mut oracle = Oracle::new(lines, served);
    let mut progress = Progress::new(list.count);
    for index in 0..list.count {
        oracle.answer(&list.line(index));
        progress.at(index + 1);
    }
    let seconds = progress.seconds();
    println!("{:>12}  lines answered, in {seconds:.1} s: {:.0} a second", list.count, list.count as f64 / seconds);
    oracle.paths.print();
}

/// Writes a fixed list: stdin with the lines, stdout with the oracle's answers.
pub fn write_list(lines: Lines, list: &List, served: &Served, folder: &str) -> io::Result<()> {
    std::fs::create_dir_all(folder)?;
    let mut input = BufWriter::new(std::fs::File::create(format!("{folder}/stdin"))?);
    let mut output = BufWriter::new(std::fs::File::create(format!("{folder}/stdout"))?);
    let mut oracle = Oracle::new(lines, served);
    for index in 0..list.count {
        let line = list.line(index);
        for (file, text) in [(&mut input, &line), (&mut output, &oracle.answer(&line))] {
            file.write_all(text)?;
            file.write_all(b"\n")?;
        }
    }
    input.flush()?;
    output.flush()
}
