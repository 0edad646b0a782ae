//! A library with a planted mistake about modes: each is found, in a call where it shows.

use std::collections::BTreeSet;

use at_scale::{Call, Input, Left, Part, Report, Source, Variant, compare_range};
use job::limits::{FACTS, PAIRS};
use job::modes::{PLAIN, STRICT, bare_containers};
use job::{Job, Table, Tables};

const SEEDS: u64 = 2_000;

fn found(library: impl Fn(&Call, u32) -> Left + Sync) -> Report {
    *compare_range(0, SEEDS, library).expect_err("the mistake is found")
}

/// The library where the mode is another than was given.
fn with_mode(other: impl Fn(u32) -> u32 + Sync) -> Report {
    found(|call, scratch| match (other(call.mode()), &call.input) {
        (mode, _) if mode == call.mode() => call.by_library(scratch),
        (mode, _) => call.in_mode(mode).by_library(scratch),
    })
}

/// The library where the job of a strict call is another than was given.
fn with_job(other: impl Fn(&Job, &mut Tables) + Sync) -> Report {
    found(|call, scratch| match changed(call, &other) {
        Some(changed) => changed.by_library(scratch),
        None => call.by_library(scratch),
    })
}

/// A strict call by words with a changed job, where that is one.
fn changed(call: &Call, other: impl Fn(&Job, &mut Tables)) -> Option<Call> {
    let mut changed = call.clone();
    let Input::Words(case) = &mut changed.input else {
        return None;
    };
    if case.mode != STRICT || (1..20).contains(&call.by_library(0).number) {
        return None;
    }
    let job = Job::read(&case.job)?;
    let mut tables = Tables::read(&case.job)?;
    other(&job, &mut tables);
    case.job = tables.words();
    Some(changed)
}

#[test]
fn a_condition_that_passes_unevaluated_in_strict_mode() {
    let report = with_mode(|mode| if mode == STRICT { PLAIN } else { mode });
    assert!(matches!(
        (report.variant, report.mode),
        (Variant::Strict | Variant::AsMade | Variant::Tight, STRICT)
    ));
}

#[test]
fn a_condition_that_is_evaluated_in_mode_0() {
    let report = with_mode(|mode| if mode == PLAIN { STRICT } else { mode });
    assert_eq!(report.mode, PLAIN);
}

#[test]
fn a_first_host_entry_that_is_strict() {
    let report = found(|call, scratch| match call.input {
        Input::Bytes { mode: None, .. } => call.in_mode(STRICT).by_library(scratch),
        _ => call.by_library(scratch),
    });
    assert!(matches!(
        report.variant,
        Variant::Host | Variant::HostOtherProof
    ));
}

#[test]
fn a_second_host_entry_that_is_at_mode_0() {
    let report = found(|call, scratch| match call.input {
        Input::Bytes { mode: Some(_), .. } => call.in_mode(PLAIN).by_library(scratch),
        _ => call.by_library(scratch),
    });
    assert!(matches!(
        report.variant,
        Variant::HostMode | Variant::HostRefusedMode
    ));
}

/// To a byte, to two, to its lowest bit, without its highest.
#[test]
fn a_mode_that_is_cut() {
    for mask in [0xff, 0xffff, 1, u32::MAX >> 1] {
        let report = with_mode(|mode| mode & mask);
        assert!(report.mode > STRICT);
        assert_eq!(report.expected.0, 11);
    }
}

#[test]
fn a_mode_2_that_is_taken() {
    let report = with_mode(|mode| if mode == 2 { STRICT } else { mode });
    assert_eq!((report.mode, report.expected.0), (2, 11));
}

/// The number of an unknown mode, where this is what the call gives otherwise, is another.
fn with_order(otherwise: u32, number: u32) -> Report {
    found(|call, scratch| {
        let mut left = call.by_library(scratch);
        let plain = call.in_mode(PLAIN).by_library(scratch).number;
        if call.mode() > STRICT && plain == otherwise && left.answer.len() == 8 {
            left.number = number;
            left.answer.fill(0);
            left.answer[0] = number;
        }
        left
    })
}

#[test]
fn another_place_of_11() {
    for earlier in [1, 2, 3] {
        assert_eq!(with_order(earlier, 11).expected.0, earlier);
    }
    for later in [5, 6, 7, 8, 9, 10] {
        assert_eq!(with_order(later, later).expected.0, 11);
    }
}

#[test]
fn a_mode_that_is_refused_before_the_answer_s_length() {
    let report = found(|call, scratch| {
        let mut left = call.by_library(scratch);
        if call.mode() > STRICT && call.answer != 8 {
            left.number = 11;
        }
        left
    });
    assert_eq!(report.expected.0, 10);
}

/// The refusal is the condition's: mode 0 answers otherwise.
fn refused_by_condition(call: &Call, left: &Left, scratch: u32) -> bool {
    let of_condition = call.mode() == STRICT && matches!(left.number, 45 | 46 | 51);
    of_condition && call.in_mode(PLAIN).by_library(scratch).answer != left.answer
}

/// As in an ordinary fact.
#[test]
fn a_47_in_place_of_51() {
    let report = found(|call, scratch| {
        let mut left = call.by_library(scratch);
        if left.number == 51 && refused_by_condition(call, &left, scratch) {
            left.number = 47;
            left.answer[0] = 47;
        }
        left
    });
    assert_eq!((report.expected.0, report.found.0), (51, 47));
}

/// The store of a refusal without the terms that the evaluation added.
#[test]
fn terms_that_do_not_stay() {
    let report = found(|call, scratch| {
        let mut left = call.by_library(scratch);
        if let Input::Words(case) = &call.input
            && refused_by_condition(call, &left, scratch)
        {
            let terms = case.job[0] as usize;
            let words = terms.checked_sub(1).map_or(0, |last| left.ends[last]) as usize;
            left.answer[1] = terms as u32;
            left.kinds[terms..].copy_from_slice(&case.lent_kinds()[terms..]);
            left.ends[terms..].copy_from_slice(&case.lent_ends()[terms..]);
            left.pool[words..].copy_from_slice(&case.lent_pool()[words..]);
        }
        left
    });
    assert_eq!(report.mode, STRICT);
}

/// The call's first word, its primitive, is taken for the name of a variable.
#[test]
fn a_condition_that_binds() {
    let report = with_job(|job, tables| {
        for fact in bare_containers(job) {
            let call = job.cell(Table::Facts, fact as usize).words[0];
            let name = job.cell(Table::Expressions, call as usize).words[0];
            let variable = tables.variable(name);
            let fact = &mut tables.of_mut(Table::Facts)[fact as usize];
            (fact.kind, fact.words) = (0, vec![call, variable]);
        }
    });
    assert_eq!(report.source, Source::ConditionJob);
}

/// A name that no word of the job is.
fn unused_name(tables: &Tables) -> u32 {
    let used: BTreeSet<u32> = tables.words().into_iter().collect();
    (0..).find(|name| !used.contains(name)).expect("a name")
}

/// Before each condition stands a fact that its premise proves, and that is therefore checked.
fn with_premises_checked(job: &Job, tables: &mut Tables) {
    let conditions = bare_containers(job);
    for rule in 0..job.count(Table::Rules) {
        let words = job.cell(Table::Rules, rule).words;
        let facts = &words[2..2 + words[1] as usize];
        let condition = facts.iter().position(|fact| conditions.contains(fact));
        let Some(place) = condition.filter(|_| facts.len() < FACTS) else {
            continue;
        };
        let name = unused_name(tables);
        let variable = tables.variable(name);
        let fact = tables.bare(variable);
        let rule = &mut tables.of_mut(Table::Rules)[rule].words;
        rule[1] += 1;
        rule.insert(2 + place, fact);
        for proof in 0..job.count(Table::Proofs) {
            add_premise(job, tables, (proof, words[0]), place, name);
        }
    }
}

/// Puts the premise at this place of a step by the rule twice, and binds the name to what it proves.
fn add_premise(
    job: &Job,
    tables: &mut Tables,
    (proof, rule): (usize, u32),
    place: usize,
    name: u32,
) {
    let cell = job.cell(Table::Proofs, proof);
    let by_rule = cell.kind == 1 && cell.words[2] == rule;
    if !by_rule || cell.words[3] as usize <= place {
        return;
    }
    let premise = cell.words[4 + place];
    let proved = job.cell(Table::Proofs, premise as usize).words[1];
    let step = &mut tables.of_mut(Table::Proofs)[proof].words;
    if step.len() - 4 - (step[3] as usize) < 2 * PAIRS {
        step[3] += 1;
        step.insert(4 + place, premise);
        step.extend([name, proved]);
    }
}

/// Not by the height, to which the new fact adds.
#[test]
fn a_premise_that_is_checked() {
    let report = with_job(with_premises_checked);
    assert_eq!(
        (report.mode, report.difference.part),
        (STRICT, Part::Number)
    );
}

/// What is not in normal form is taken for a unit literal, where the condition is then refused.
#[test]
fn a_condition_that_is_evaluated_before_its_normal_form() {
    let report = found(|call, scratch| {
        let left = call.by_library(scratch);
        let early = changed(call, |_, tables| {
            let number = left.answer[3] as usize;
            if left.number == 49 {
                let cell = &mut tables.of_mut(Table::Expressions)[number];
                (cell.kind, cell.words) = (0, vec![0, 0, 0]);
            }
        });
        let early = early.map(|early| (early.by_library(scratch), early));
        match early {
            Some((early, call)) if refused_by_condition(&call, &early, scratch) => early,
            _ => left,
        }
    });
    assert_eq!((report.expected.0, report.mode), (49, STRICT));
}
