//! Reflexive claims by the library and by the Rust: of each term below what a head or a global action yields,
//! and of each that is not, over more terms than the marks of two words.

use at_scale::{Call, Input, Judge, Source, Variant};
use generator::Case;
use job::{Table, Tables};

const F: u32 = 4;
const RULE: u32 = 5;
const X: u32 = 6;
const Y: u32 = 7;
/// Terms in two towers over two integers: term i is F of term i - 2.
const TERMS: u32 = 100;
/// Room for all terms and none to spare: the last mark is the last bit that there is.
const ROOM: (usize, usize) = (TERMS as usize, 3 * TERMS as usize);

fn two_towers() -> Tables {
    let mut tables = Tables::default();
    tables.term_integer(7);
    tables.term_integer(8);
    for below in 0..TERMS - 2 {
        tables.term_application(F, &[below]);
    }
    tables
}

/// A step claims the lowest term, with all of its tower marked; on it a step claims a term, with Y another.
fn head(yielded: u32, claimed: u32) -> Tables {
    let mut tables = two_towers();
    let [x, y] = [X, Y].map(|name| tables.variable(name));
    let fact = tables.bare(x);
    let yields = tables.expression_action(y);
    tables.rule(RULE, &[fact], &[yields]);
    let lowest = tables.fiat((0, 0));
    let pairs = |y| [(X, 0), (Y, y)];
    let below = tables.rule_step((0, 0), RULE, &[lowest], &pairs(TERMS - 2));
    tables.rule_step((claimed, claimed), RULE, &[below], &pairs(yielded));
    tables
}

/// A fiat claims a term; the global action yields a tower over the first integer.
fn global(levels: usize, claimed: u32) -> Tables {
    let mut tables = two_towers();
    let bottom = tables.integer(7);
    let top = tables.tower(F, bottom, levels, 1);
    tables.expression_action(top);
    tables.globals = 1;
    tables.fiat((claimed, claimed));
    tables
}

/// The number that the library returns; it leaves what the Rust leaves.
fn number(tables: &Tables) -> u32 {
    let asked = tables.count(Table::Proofs) - 1;
    let call = Call {
        source: Source::Job,
        variant: Variant::AsMade,
        judge: Judge::Rust,
        input: Input::Words(Case::new(tables.words(), asked, ROOM.0, ROOM.1)),
        answer: 8,
        scratches: vec![asked],
    };
    let expected = call.by_rust().expect("few steps");
    assert_eq!(call.by_library(asked), expected);
    expected.number
}

/// Term `below` is `term` or stands below it.
fn is_below(below: u32, term: u32) -> bool {
    below <= term && (term - below) % 2 == 0
}

#[test]
fn a_head_yields_what_is_below_its_value() {
    oracle::on_deep_stack(|| {
        for yielded in 0..TERMS {
            for claimed in 0..TERMS {
                let number = number(&head(yielded, claimed));
                let due = if is_below(claimed, yielded) { 0 } else { 31 };
                assert_eq!(number, due, "{claimed} below {yielded}");
            }
        }
    });
}

#[test]
fn globals_yield_what_is_below_their_value() {
    oracle::on_deep_stack(|| {
        for levels in 0..TERMS / 2 {
            for claimed in 2..TERMS {
                let number = number(&global(levels as usize, claimed));
                let due = if is_below(claimed, 2 * levels) { 0 } else { 33 };
                assert_eq!(number, due, "{claimed} below {levels} levels");
            }
        }
    });
}
