//! The hostile load: jobs at the limits of document 01 on a stack of 8 MiB, and the least stack for the deepest.
//! Each check runs in a child, so that an overflow of its stack ends the child alone.

use std::env;
use std::process::{Child, Command, Stdio};
use std::thread;
use std::time::{Duration, Instant};

use benchmark::hostile::{self, Deep, Hostile};
use benchmark::lent::{Entry, Lent, WORD};
use generator::Case;
use tools::print;

const USUAL_STACK: usize = 8 << 20;
const LARGE_STACK: usize = 64 << 20;
/// The least stack is found to this many bytes.
const GRAIN: usize = 16 << 10;
/// A job that takes longer is stopped, and its time reckoned from fewer steps.
const LONGEST: Duration = Duration::from_secs(600);
/// What the time must grow by, at least, to be reckoned from.
const GROWTH: f64 = 0.5;

/// What a child did.
enum Ended {
    /// The seconds that the check took, and the eight words.
    Answered(f64, String),
    Overflowed,
    Stopped,
}

/// Which check a child runs.
#[derive(Clone, Copy)]
enum Work {
    /// A hostile job by its place, with so many steps.
    Load(usize, usize),
    /// A deep job by its entry and place.
    Deep(Entry, usize),
}

impl Work {
    fn arguments(self, stack: usize) -> Vec<String> {
        let (name, numbers) = match self {
            Work::Load(place, steps) => ("--load", vec![stack, place, steps]),
            Work::Deep(Entry::Words, place) => ("--deep-words", vec![stack, place]),
            Work::Deep(Entry::Bytes, place) => ("--deep-bytes", vec![stack, place]),
        };
        let numbers = numbers.iter().map(usize::to_string);
        [name.to_string()].into_iter().chain(numbers).collect()
    }

    /// Runs it in a child.
    fn run(self, stack: usize, longest: Duration) -> Ended {
        let mut child = Command::new(env::current_exe().expect("this program"))
            .args(self.arguments(stack))
            .stdout(Stdio::piped())
            .stderr(Stdio::null())
            .spawn()
            .expect("a child");
        if !ends_within(&mut child, longest) {
            child.kill().expect("a child that ends");
            child.wait().expect("a child that ended");
            return Ended::Stopped;
        }
        let output = child.wait_with_output().expect("its output");
        let text = String::from_utf8_lossy(&output.stdout).into_owned();
        match text.split_once(' ') {
            Some((seconds, answer)) if output.status.success() => {
                Ended::Answered(seconds.parse().expect("seconds"), answer.to_string())
            }
            _ => Ended::Overflowed,
        }
    }

    /// The seconds and the answer on a large stack, however long it takes.
    fn measure(self) -> (f64, String) {
        match self.run(LARGE_STACK, Duration::MAX) {
            Ended::Answered(seconds, answer) => (seconds, answer),
            _ => panic!("no answer on a large stack"),
        }
    }
}

fn ends_within(child: &mut Child, longest: Duration) -> bool {
    let started = Instant::now();
    while started.elapsed() < longest {
        if child.try_wait().expect("a child").is_some() {
            return true;
        }
        thread::sleep(Duration::from_millis(2));
    }
    false
}

/// In the child: checks a case on a stack of so many bytes, and prints the seconds and the answer.
fn check_on_stack(case: &Case, entry: Entry, word: u32, stack: usize) {
    let mut lent = Lent::with_word(case, word);
    let seconds = thread::scope(|scope| {
        let check = || {
            let started = Instant::now();
            lent.ours(entry);
            started.elapsed().as_secs_f64()
        };
        thread::Builder::new()
            .stack_size(stack)
            .spawn_scoped(scope, check)
            .expect("a thread")
            .join()
            .expect("an answer")
    });
    print!("{seconds} {}", print::answer(&lent.answer));
}

/// The time of all steps from the growth over fewer, and the answer with these.
fn reckoned(place: usize, most: usize) -> (f64, String) {
    let (first, _) = Work::Load(place, 1).measure();
    let mut steps = 2;
    loop {
        let (seconds, answer) = Work::Load(place, steps).measure();
        let grown = seconds - first;
        if grown > GROWTH.max(first / 4.0) || 2 * steps > most {
            let each = grown / (steps - 1) as f64;
            return (seconds + each * (most - steps) as f64, answer);
        }
        steps *= 2;
    }
}

/// The seconds within which an entry is to answer, and whether it did.
fn by_limit(entry: Entry, seconds: f64) -> String {
    let limit = match entry {
        Entry::Words => 60,
        Entry::Bytes => 10,
    };
    let over = seconds > f64::from(limit);
    format!("{} {limit} s", if over { "OVER" } else { "within" })
}

/// Runs a job whole, on the usual stack or, where that overflows, on a large one.
fn explore(place: usize, hostile: &Hostile) {
    let work = Work::Load(place, hostile.most);
    let mut ended = work.run(USUAL_STACK, LONGEST);
    let overflows = matches!(ended, Ended::Overflowed);
    if overflows {
        ended = work.run(LARGE_STACK, LONGEST);
    }
    let (about, (seconds, answer)) = match ended {
        Ended::Answered(seconds, answer) => (" ", (seconds, answer)),
        _ => ("~", reckoned(place, hostile.most)),
    };
    println!(
        "{:44} {:>6} {about}{seconds:>11.3} {:11} {:9} {answer}",
        hostile.name,
        hostile.most,
        by_limit(hostile.entry, seconds),
        if overflows { "OVERFLOWS" } else { "" },
    );
}

/// Runs the jobs whose name has the part.
fn load(part: &str) {
    println!(
        "{:44} {:>6} {:>12} {:11} {:9} answer; ~: reckoned, with the answer of fewer steps",
        "job", "steps", "seconds", "limit", "8 MiB"
    );
    for (place, hostile) in hostile::all().iter().enumerate() {
        if hostile.name.contains(part) {
            explore(place, hostile);
        }
    }
}

/// The deep jobs of an entry.
fn deep_jobs(entry: Entry) -> Vec<Deep> {
    match entry {
        Entry::Words => hostile::by_words(),
        Entry::Bytes => hostile::by_bytes(),
    }
}

/// The least stack with which a deep job has the answer that it has with a large one.
fn least_stack(work: Work) -> (usize, String) {
    let (_, expected) = work.measure();
    let answers = |stack: usize| match work.run(stack, Duration::MAX) {
        Ended::Answered(_, answer) => answer == expected,
        _ => false,
    };
    let (mut too_few, mut enough) = (0, LARGE_STACK / GRAIN);
    while enough - too_few > 1 {
        let middle = (too_few + enough) / 2;
        match answers(middle * GRAIN) {
            true => enough = middle,
            false => too_few = middle,
        }
    }
    (enough * GRAIN, expected)
}

fn stacks() {
    println!("{:6} {:44} {:>9} answer", "entry", "job", "least KiB");
    for (entry, name) in [(Entry::Words, "words"), (Entry::Bytes, "bytes")] {
        for (place, deep) in deep_jobs(entry).iter().enumerate() {
            let (bytes, answer) = least_stack(Work::Deep(entry, place));
            println!("{name:6} {:44} {:>9} {answer}", deep.name, bytes >> 10);
        }
    }
}

/// A number among the arguments.
fn number(text: &str) -> usize {
    text.parse().expect("a number")
}

fn main() {
    let arguments: Vec<String> = env::args().skip(1).collect();
    let words: Vec<&str> = arguments.iter().map(String::as_str).collect();
    match words[..] {
        [] => {
            load("");
            stacks();
        }
        ["--only", part] => load(part),
        ["--stacks"] => stacks(),
        ["--load", stack, place, steps] => {
            let hostile = hostile::all()[number(place)];
            let case = hostile.case(number(steps));
            check_on_stack(&case, hostile.entry, hostile.word, number(stack));
        }
        ["--deep-words", stack, place] => {
            let deep = &deep_jobs(Entry::Words)[number(place)];
            check_on_stack(&deep.case, Entry::Words, WORD, number(stack));
        }
        ["--deep-bytes", stack, place] => {
            let deep = &deep_jobs(Entry::Bytes)[number(place)];
            check_on_stack(&deep.case, Entry::Bytes, WORD, number(stack));
        }
        _ => panic!("hostile [--only NAME | --stacks]"),
    }
}
