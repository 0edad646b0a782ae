//! The jobs of the benchmark, by sets.

mod chains;
mod conditions;
mod counts;
mod every_kind;
mod names;
mod terms;
mod wide;

use generator::{Case, extremes, holding_job};
use job::limits::{PROGRAM_CELLS, PROGRAM_POOL};
use job::modes::STRICT;
use job::{Job, Table, Tables};

use crate::lent::Entry;
use crate::with_program_room;

/// Jobs that are measured together, by one entry.
pub struct Set {
    pub name: &'static str,
    pub entry: Entry,
    pub cases: Vec<Case>,
}

/// Generated jobs that hold, of ten to sixty proofs, with the store of the host entry.
fn small(name: &'static str, entry: Entry) -> Set {
    let cases = (0..)
        .map(holding_job)
        .filter(|case| {
            let job = Job::read(&case.job).expect("a job");
            (10..=60).contains(&job.count(Table::Proofs))
        })
        .map(|case| Case::new(case.job, case.asked, PROGRAM_CELLS, PROGRAM_POOL))
        .take(400)
        .collect();
    Set { name, entry, cases }
}

fn one(name: &'static str, tables: Tables) -> Set {
    Set {
        name,
        entry: Entry::Words,
        cases: vec![with_program_room(&tables)],
    }
}

/// The same set in strict mode.
fn strict(name: &'static str, tables: Tables) -> Set {
    let Set { entry, cases, .. } = one(name, tables);
    let cases = cases.into_iter().map(|case| case.in_mode(STRICT)).collect();
    Set { name, entry, cases }
}

/// All sets, in the order in which they are printed. Those of terms show the index of request Q-4.
pub fn all() -> Vec<Set> {
    vec![
        small("small: 10 to 60 proofs", Entry::Words),
        small("small, by the entry for bytes", Entry::Bytes),
        one("large: every kind, 1,845 proofs", every_kind::job(230)),
        one("large: every kind, 4,093 proofs", every_kind::job(511)),
        one("chain: symmetry", extremes::deep_symmetry(4_095)),
        one("chain: transitivity", chains::transitivity(4_094)),
        one("chain: congruence", chains::congruence(4_094)),
        one("chain: rule steps", extremes::deep_swaps(4_095)),
        one("chain: shared proofs", extremes::shared_proofs(4_094)),
        one("wide: 256 steps at the limits", wide::job(256)),
        one("names: 256 rules", names::rules(256)),
        one("names: 4,096 rules", names::rules(4_096)),
        one("names: 4,096 functions", names::functions(4_096)),
        one("names: 512 rows", names::rows(512)),
        one("names: 4,096 rows", names::rows(4_096)),
        one("names: 4,096 normalisers", names::normalisers(4_096)),
        one("counts: 1,000 sums", counts::computed(1_000)),
        one("counts: 1,000 sums by rows", counts::looked_up(1_000)),
        one("conditions: 1,000 steps, mode 0", conditions::swaps(1_000)),
        strict("conditions: 1,000 steps, strict", conditions::swaps(1_000)),
        one("terms: 2,000", terms::flat(2_000)),
        one("terms: 10,000", terms::flat(10_000)),
        one("terms: rules 1,000 deep", extremes::deep_rules(1_000)),
        one(
            "terms: congruences 1,000 deep",
            extremes::deep_congruence(1_000),
        ),
    ]
}
