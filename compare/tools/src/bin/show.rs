//! Prints a job and the Rust's answer.
//!
//!     show FILE [ASKED [MODE]]   a job as bytes, with the program's store
//!     show --seed SEED           the generator's case of a seed
//!     show --counting SEED       its counting case
//!     show --condition SEED      its case with bare container conditions
//!     show --fixed FILE N        the Nth job of a fixed list

use std::fs;

use generator::Case;
use job::limits;
use tools::{fixed_list, print, to_words};

fn main() {
    let arguments: Vec<String> = std::env::args().skip(1).collect();
    let arguments: Vec<&str> = arguments.iter().map(String::as_str).collect();
    let number = |text: &str| text.parse::<u64>().expect("a number");
    let case = match arguments[..] {
        ["--seed", seed] => generator::job(number(seed)),
        ["--counting", seed] => generator::counting_job(number(seed)),
        ["--condition", seed] => generator::condition_job(number(seed)),
        ["--fixed", file, place] => {
            let words = to_words(&fs::read(file).expect("a list"));
            fixed_list::read(&words)[number(place) as usize]
                .case
                .clone()
        }
        [file] => from_file(file, None),
        [file, asked] => from_file(file, Some(number(asked) as u32)),
        [file, asked, mode] => {
            from_file(file, Some(number(asked) as u32)).in_mode(number(mode) as u32)
        }
        _ => {
            eprintln!(
                "show FILE [ASKED [MODE]] | --seed SEED | --counting SEED | --condition SEED | --fixed FILE N"
            );
            std::process::exit(2);
        }
    };
    show(&case);
}

fn from_file(file: &str, asked: Option<u32>) -> Case {
    let words = to_words(&fs::read(file).expect("a job"));
    let proofs = words.get(10).copied().unwrap_or(0);
    let asked = asked.unwrap_or(proofs.wrapping_sub(1));
    Case::new(words, asked, limits::PROGRAM_CELLS, limits::PROGRAM_POOL)
}

fn show(case: &Case) {
    print!("{}", print::job(&case.job));
    println!(
        "asked {} mode {} kinds {} ends {} pool {} index {} scratch {}",
        case.asked, case.mode, case.kinds, case.ends, case.pool, case.index, case.scratch
    );
    match case.judge() {
        Ok(outcome) => {
            println!("answer {}", print::answer(&outcome.answer));
            let own = case.job.first().copied().unwrap_or(0) as usize;
            for term in own..outcome.terms() {
                let start = if term == 0 { 0 } else { outcome.ends[term - 1] };
                let words = &outcome.pool[start as usize..outcome.ends[term] as usize];
                println!("added term {term}: kind {} {words:?}", outcome.kinds[term]);
            }
        }
        Err(_) => println!("no answer: too many steps"),
    }
}
