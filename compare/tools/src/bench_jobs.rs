//! Jobs A and B of document 01 as cases: the twelve marked ones and the unmarked ones. A job whose
//! primitives compute, and one whose rule has a bare container condition.

use generator::Case;
use job::primitives::{PRODUCT, QUOTIENT, SUM};
use job::{Table, Tables};

const F: u32 = 4;
const AMPLE: (usize, usize) = (16, 64);

fn last_of(tables: &Tables, (cells, pool): (usize, usize)) -> Case {
    Case::new(tables.words(), tables.count(Table::Proofs) - 1, cells, pool)
}

pub fn job_a() -> Tables {
    let mut tables = Tables::default();
    tables.term_integer(7);
    tables.fiat((0, 0));
    tables.symmetry((0, 0), 0);
    tables
}

/// Terms 7, 8, F(7), and F(8) unless it is left out; globals 7 = 8 and F(7).
pub fn job_b(with_term_3: bool) -> Tables {
    let mut tables = Tables::default();
    tables.term_integer(7);
    tables.term_integer(8);
    tables.term_application(F, &[0]);
    if with_term_3 {
        tables.term_application(F, &[1]);
    }
    let seven = tables.integer(7);
    let eight = tables.integer(8);
    let call = tables.constructor(F, &[seven]);
    tables.union_action(seven, eight);
    tables.expression_action(call);
    tables.globals = 2;
    tables
}

fn fiat(claimed: (u32, u32)) -> Case {
    let mut tables = job_b(true);
    tables.fiat(claimed);
    last_of(&tables, AMPLE)
}

fn transitivity(right: (u32, u32), claimed: (u32, u32)) -> Case {
    let mut tables = job_b(true);
    let left = tables.fiat((0, 1));
    let right = tables.fiat(right);
    tables.transitivity(claimed, left, right);
    last_of(&tables, AMPLE)
}

fn symmetry() -> Case {
    let mut tables = job_b(true);
    let proof = tables.fiat((0, 1));
    tables.symmetry((0, 1), proof);
    last_of(&tables, AMPLE)
}

fn congruence_in(
    with_term_3: bool,
    index: u32,
    child: (u32, u32),
    claimed: (u32, u32),
    room: (usize, usize),
) -> Case {
    let mut tables = job_b(with_term_3);
    let base = tables.fiat((2, 2));
    let child = tables.fiat(child);
    tables.congruence(claimed, base, index, child);
    last_of(&tables, room)
}

fn congruence(index: u32, child: (u32, u32), claimed: (u32, u32)) -> Case {
    congruence_in(true, index, child, claimed, AMPLE)
}

fn eval() -> Case {
    let mut tables = job_b(true);
    tables.eval((0, 0));
    last_of(&tables, AMPLE)
}

fn arguments(count: usize) -> Case {
    let mut tables = job_b(true);
    let call = tables.constructor(5, &vec![0; count]);
    tables.expression_action(call);
    tables.globals = 3;
    tables.fiat((0, 1));
    last_of(&tables, AMPLE)
}

/// Job A, the twelve marked cases of job B in their order, then the unmarked ones.
pub fn cases() -> Vec<Case> {
    let short = |room| congruence_in(false, 0, (0, 1), (2, 2), room);
    vec![
        last_of(&job_a(), AMPLE),
        fiat((0, 1)),
        fiat((0, 0)),
        fiat((2, 2)),
        fiat((3, 3)),
        transitivity((1, 0), (0, 0)),
        transitivity((0, 1), (0, 1)),
        symmetry(),
        congruence(0, (0, 1), (2, 3)),
        congruence(1, (0, 1), (2, 3)),
        congruence(0, (1, 0), (2, 3)),
        congruence(0, (0, 1), (2, 2)),
        congruence(0, (0, 1), (3, 3)),
        eval(),
        short((3, 10)),
        short((4, 9)),
        short((4, 10)),
        arguments(16),
        arguments(17),
    ]
}

const OLD: u32 = 0;
const NEW: u32 = 1;
const TILT: u32 = 4;
const LEVEL: u32 = 5;
const STATION: u32 = 6;
const COUNT: u32 = 7;
const LEVELLED: u32 = 8;

/// Two tilt counts of station 1, 3 and -5, are merged by their sum; five times that by 4, rounded toward
/// zero, is the station's level: -2. Only the sum's and the quotient's results are terms of the job.
pub fn tilt() -> Tables {
    let mut tables = Tables::default();
    let station = tables.term_integer(1);
    let counts = [3, -5].map(|count| tables.term_integer(count));
    let views = counts.map(|count| tables.term_application(TILT, &[station, count]));
    let sum = tables.term_integer(-2);
    let merged = tables.term_application(TILT, &[station, sum]);
    let level = tables.term_application(LEVEL, &[station]);
    tilt_program(&mut tables);
    let [old, new] = views.map(|view| tables.fiat((view, view)));
    let merge = tables.merge_step((merged, merged), TILT, old, new);
    let pairs = [(STATION, station), (COUNT, sum)];
    tables.rule_step((level, sum), LEVELLED, &[merge], &pairs);
    tables
}

/// The two counts as globals, the function with its merge, and the rule.
fn tilt_program(tables: &mut Tables) {
    let kinds = [SUM, PRODUCT, QUOTIENT];
    let [sum, product, quotient] = kinds.map(|kind| tables.primitive(kind, kind + 10));
    let [one, five, four] = [1, 5, 4].map(|value| tables.integer(value));
    for count in [3, -5] {
        let count = tables.integer(count);
        let call = tables.custom(TILT, &[one, count]);
        tables.set_action(call);
    }
    tables.globals = 2;
    let [old, new] = [OLD, NEW].map(|name| tables.variable(name));
    let merge = tables.primitive_call(sum, &[old, new]);
    tables.function(TILT, merge);
    let [station, count] = [STATION, COUNT].map(|name| tables.variable(name));
    let tilt = tables.custom(TILT, &[station]);
    let fact = tables.equality(tilt, count);
    let times = tables.primitive_call(product, &[count, five]);
    let by = tables.primitive_call(quotient, &[times, four]);
    let level = tables.constructor(LEVEL, &[station]);
    let head = tables.union_action(level, by);
    tables.rule(LEVELLED, &[fact], &[head]);
}

const POSITION: u32 = 4;
const NARROWED: u32 = 5;
const EXACT: u32 = 6;
const SINGLES: u32 = 7;
const NARROWING: u32 = 11;

/// A rule takes the narrowing to single precision away where the position is exact: `narrowing(x) = x`
/// if `exact(x)`, a bare container condition. The rows say that 2^24 is; 2^24 + 3, which no single is,
/// has none. Proof 1 is the rule's step for the first position, proof 3 that for the second: in mode 0
/// both are accepted, in strict mode the second is refused with 46.
pub fn east_flank() -> Tables {
    let mut tables = Tables::default();
    let positions = [1 << 24, (1 << 24) + 3].map(|value| tables.term_integer(value));
    let narrowed = positions.map(|position| tables.term_application(NARROWING, &[position]));
    let singles = tables.term_application(SINGLES, &[positions[0]]);
    let exact = tables.primitive(3, EXACT);
    tables.row(exact, singles, &[positions[0]]);
    let position = tables.variable(POSITION);
    let call = tables.primitive_call(exact, &[position]);
    let condition = tables.bare(call);
    let narrowing = tables.constructor(NARROWING, &[position]);
    let head = tables.union_action(narrowing, position);
    tables.rule(NARROWED, &[condition], &[head]);
    for i in 0..2 {
        let premise = tables.fiat((positions[i], positions[i]));
        let pairs = [(POSITION, positions[i])];
        tables.rule_step((narrowed[i], positions[i]), NARROWED, &[premise], &pairs);
    }
    tables
}
