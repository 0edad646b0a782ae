//! One job with steps of every kind that all hold and are all reached from the asked proof.

use job::Tables;

const NEW: u32 = 1;
const F: u32 = 4;
const G: u32 = 5;
const VIEW: u32 = 6;
const RAW: u32 = 7;
const RULE: u32 = 8;
const JOIN: u32 = 9;
const PICK: u32 = 10;
const BOX: u32 = 11;
const NEXT: u32 = 12;
const X: u32 = 20;
const Y: u32 = 21;
const W: u32 = 22;
/// How many literals there are.
const LITERALS: usize = 80;

/// For each literal: itself, F of it, G of it and the first, the view of it, RAW of it.
struct Terms {
    literals: Vec<u32>,
    f: Vec<u32>,
    g: Vec<u32>,
    views: Vec<u32>,
    raw: Vec<u32>,
}

fn terms(tables: &mut Tables) -> Terms {
    let literals: Vec<u32> = (0..LITERALS as i64)
        .map(|value| tables.term_integer(value))
        .collect();
    let first = literals[0];
    let mut each = |term: &dyn Fn(u32) -> (u32, Vec<u32>)| -> Vec<u32> {
        literals
            .iter()
            .map(|&literal| {
                let (name, children) = term(literal);
                tables.term_application(name, &children)
            })
            .collect()
    };
    Terms {
        f: each(&|literal| (F, vec![literal])),
        g: each(&|literal| (G, vec![literal, first])),
        views: each(&|literal| (VIEW, vec![first, literal])),
        raw: each(&|literal| (RAW, vec![literal])),
        literals,
    }
}

/// Neighbouring literals are united, every view is set, and F, G and RAW of the first stand there.
fn globals(tables: &mut Tables) {
    let literals: Vec<u32> = (0..LITERALS as i64)
        .map(|value| tables.integer(value))
        .collect();
    let first = literals[0];
    let mut count = 3;
    for pair in literals.windows(2) {
        tables.union_action(pair[0], pair[1]);
        count += 1;
    }
    for &literal in &literals {
        let view = tables.custom(VIEW, &[first, literal]);
        tables.set_action(view);
        count += 1;
    }
    for (name, arguments) in [
        (F, vec![first]),
        (G, vec![first, first]),
        (RAW, vec![first]),
    ] {
        let call = tables.constructor(name, &arguments);
        tables.expression_action(call);
    }
    tables.globals = count;
}

/// The merge picks the new value; RAW of a literal normalises to RAW of the next.
fn program(tables: &mut Tables, terms: &Terms) {
    let pick = tables.primitive(1, PICK);
    let container = tables.primitive(3, BOX);
    let next = tables.primitive(1, NEXT);
    for (place, &literal) in terms.literals.iter().enumerate() {
        tables.row(pick, literal, &[literal]);
        tables.row(container, terms.raw[place], &[literal]);
        tables.row(next, terms.raw[(place + 1) % LITERALS], &[literal]);
    }
    tables.normaliser(RAW, next);
    let new = tables.variable(NEW);
    let merge = tables.primitive_call(pick, &[new]);
    tables.function(VIEW, merge);
    let [x, y, w] = [X, Y, W].map(|name| tables.variable(name));
    let boxed = tables.primitive_call(container, &[x]);
    let facts = [(x, y), (y, x), (w, boxed)].map(|(left, right)| tables.equality(left, right));
    let calls = [x, y].map(|side| tables.constructor(F, &[side]));
    let head = [
        tables.union_action(calls[0], calls[1]),
        tables.expression_action(w),
    ];
    tables.rule(RULE, &facts, &head);
}

/// The places from the first to the last literal and back, over and over.
fn zigzag(step: usize) -> usize {
    let last = LITERALS - 1;
    let place = step % (2 * last);
    place.min(2 * last - place)
}

/// The proof at hand of each of four chains, with its right side.
type Chains = [(u32, u32); 4];

/// Eight proofs, of which four lengthen the chains of F, of G, of the views and of RAW.
fn round(tables: &mut Tables, terms: &Terms, step: usize, chains: Chains) -> Chains {
    let (from, to) = (zigzag(step), zigzag(step + 1));
    let (a, b) = (terms.literals[from], terms.literals[to]);
    let [(f, _), (g, _), (view, _), (raw, _)] = chains;
    let there = tables.fiat((a, b));
    let back = tables.symmetry((b, a), there);
    let claimed = (terms.f[from], terms.f[to]);
    let premises = [there, back, there];
    let inner = tables.rule_step(claimed, RULE, &premises, &[(X, a), (Y, b)]);
    let new = terms.views[to];
    let new_view = tables.fiat((new, new));
    let next = terms.raw[(step + 1) % LITERALS];
    [
        (
            tables.transitivity((terms.f[0], terms.f[to]), f, inner),
            terms.f[to],
        ),
        (
            tables.congruence((terms.g[0], terms.g[to]), g, 0, there),
            terms.g[to],
        ),
        (tables.merge_step((new, new), VIEW, view, new_view), new),
        (tables.normalisation((terms.raw[0], next), raw), next),
    ]
}

/// A rule step whose four bare facts have the ends of the chains as premises.
fn join(tables: &mut Tables, chains: Chains) {
    let variables = [0, 1, 2, 3].map(|place| tables.variable(X + place));
    let facts = variables.map(|variable| tables.bare(variable));
    let head = tables.expression_action(variables[0]);
    tables.rule(JOIN, &facts, &[head]);
    let premises = chains.map(|(proof, _)| proof);
    let mut pairs = [(0, 0); 4];
    for (place, (_, right)) in chains.into_iter().enumerate() {
        pairs[place] = (X + place as u32, right);
    }
    let claimed = (chains[0].1, chains[0].1);
    tables.rule_step(claimed, JOIN, &premises, &pairs);
}

/// Eight proofs a round, and five.
pub fn job(rounds: usize) -> Tables {
    let mut tables = Tables::default();
    let terms = terms(&mut tables);
    globals(&mut tables);
    program(&mut tables, &terms);
    let mut chains = [&terms.f, &terms.g, &terms.views, &terms.raw].map(|chain| {
        let first = chain[0];
        (tables.fiat((first, first)), first)
    });
    for step in 0..rounds {
        chains = round(&mut tables, &terms, step, chains);
    }
    join(&mut tables, chains);
    tables
}
