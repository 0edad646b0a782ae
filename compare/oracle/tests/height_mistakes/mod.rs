//! Heights as a library with a mistake would count them. Tests of the oracle, of `tools` and of `at_scale`
//! hold that each mistake is found.

use std::collections::{HashMap, HashSet};

use job::conditions::is_condition;
use job::modes::{PLAIN, STRICT};
use job::{Cell, Job, Table, primitives};

/// A proof that is accepted in a mode.
pub struct Accepted<'a> {
    job: Job<'a>,
    asked: u32,
    mode: u32,
    /// The facts of each rule, by its name.
    rules: HashMap<u32, &'a [u32]>,
}

/// A reference from a proof of some kind to another.
struct Reference {
    from: u32,
    kind: u32,
    /// Its place among those of that proof.
    place: usize,
    /// The fact opposite a premise.
    fact: Option<u32>,
    to: u32,
}

/// A way to count heights.
struct Way<'a> {
    counts: &'a dyn Fn(&Reference) -> bool,
    /// The height of a proof that refers to others, none of which count.
    lowest: u32,
    /// A proof that was counted before counts again.
    again: bool,
}

impl<'a> Way<'a> {
    /// By the references that count, and nothing else is mistaken.
    fn by(counts: &'a dyn Fn(&Reference) -> bool) -> Way<'a> {
        Way {
            counts,
            lowest: 1,
            again: true,
        }
    }
}

/// What is mistaken, and the height that this gives.
type Mistake = (&'static str, fn(&Accepted) -> u32);

pub const MISTAKES: &[Mistake] = &[
    ("the height counts premises opposite conditions", |it| {
        it.over(&|_| true)
    }),
    (
        "the height counts premises opposite bare conditions",
        |it| it.with_conditions(&|fact| it.is_bare(fact)),
    ),
    (
        "the height counts premises opposite equality conditions",
        |it| it.with_conditions(&|fact| !it.is_bare(fact)),
    ),
    (
        "the height counts premises opposite bare conditions in strict mode",
        |it| it.with_conditions(&|fact| it.mode == STRICT && it.is_bare(fact)),
    ),
    (
        "the height counts premises opposite bare conditions in mode 0",
        |it| it.with_conditions(&|fact| it.mode == PLAIN && it.is_bare(fact)),
    ),
    ("the height leaves out what was checked before", |it| {
        it.height(&Way {
            again: false,
            ..Way::by(&|reference| it.follows(reference))
        })
    }),
    (
        "the height leaves out what stands opposite a condition elsewhere",
        |it| {
            let opposite = it.opposite_conditions();
            it.without(&|reference| opposite.contains(&reference.to))
        },
    ),
    ("the height of a step with conditions alone is 0", |it| {
        it.height(&Way {
            lowest: 0,
            ..Way::by(&|reference| it.follows(reference))
        })
    }),
    ("the height leaves premises out", |it| {
        it.without(&|reference| reference.kind == RULE_STEP)
    }),
    ("the height counts the first premise alone", |it| {
        it.without(&|reference| {
            it.earlier_premises(reference)
                .any(|other| it.follows(&other))
        })
    }),
    ("the height leaves premises out behind a condition", |it| {
        it.without(&|reference| {
            it.earlier_premises(reference)
                .any(|other| !it.follows(&other))
        })
    }),
    ("the height leaves bare facts' premises out", |it| {
        it.without_facts(&|fact| it.is_bare(fact))
    }),
    ("the height leaves equalities' premises out", |it| {
        it.without_facts(&|fact| !it.is_bare(fact))
    }),
    ("the height leaves function facts' premises out", |it| {
        it.without_facts(&|fact| it.sides(fact).first().is_some_and(|side| side.kind == 3))
    }),
    (
        "the height takes every primitive call for a container's",
        |it| it.without_facts(&|fact| it.has_call(fact, |_| true)),
    ),
    ("the height takes kinds 6 and 7 for containers", |it| {
        it.without_facts(&|fact| it.has_call(fact, |kind| kind & 2 != 0))
    }),
    (
        "the height looks for containers below a fact's sides",
        |it| it.without_facts(&|fact| it.sides(fact).iter().any(|side| it.has_container(side))),
    ),
    ("the height leaves a merge's old out", |it| {
        it.without_place(2, 0)
    }),
    ("the height leaves a merge's new out", |it| {
        it.without_place(2, 1)
    }),
    ("the height leaves a transitivity's left out", |it| {
        it.without_place(3, 0)
    }),
    ("the height leaves a transitivity's right out", |it| {
        it.without_place(3, 1)
    }),
    ("the height leaves a symmetry's proof out", |it| {
        it.without_place(4, 0)
    }),
    ("the height leaves a congruence's base out", |it| {
        it.without_place(5, 0)
    }),
    ("the height leaves a congruence's child out", |it| {
        it.without_place(5, 1)
    }),
    ("the height leaves a normalisation's proof out", |it| {
        it.without_place(6, 0)
    }),
];

const RULE_STEP: u32 = 1;

impl<'a> Accepted<'a> {
    pub fn new(words: &'a [u32], asked: u32, mode: u32) -> Accepted<'a> {
        let job = Job::read(words).expect("a job");
        let facts = |cell: Cell<'a>| &cell.words[2..2 + cell.words[1] as usize];
        let rules = job.cells(Table::Rules);
        Accepted {
            job,
            asked,
            mode,
            rules: rules.map(|cell| (cell.words[0], facts(cell))).collect(),
        }
    }

    /// The height without a mistake.
    pub fn right_height(&self) -> u32 {
        self.without(&|_| false)
    }

    fn cell(&self, table: Table, number: u32) -> Cell<'a> {
        self.job.cell(table, number as usize)
    }

    /// All that a proof refers to, in the order of the check. One that is not checked need not have a rule.
    fn references(&self, from: u32) -> impl Iterator<Item = Reference> + use<'a> {
        let cell = self.cell(Table::Proofs, from);
        let rest = &cell.words[2..];
        let (facts, to): (&[u32], Vec<u32>) = match cell.kind {
            RULE_STEP => {
                let premises = &rest[2..2 + rest[1] as usize];
                let facts = self.rules.get(&rest[0]).copied();
                (facts.unwrap_or_default(), premises.to_vec())
            }
            2 => (&[], rest[1..].to_vec()),
            5 => (&[], vec![rest[0], rest[2]]),
            _ => (&[], rest.to_vec()),
        };
        let places = to.into_iter().enumerate();
        places.map(move |(place, to)| Reference {
            from,
            kind: cell.kind,
            place,
            fact: facts.get(place).copied(),
            to,
        })
    }

    fn follows(&self, reference: &Reference) -> bool {
        let condition = |fact| is_condition(&self.job, fact);
        !reference.fact.is_some_and(condition)
    }

    /// The premises before this one in its step; of another reference none.
    fn earlier_premises(&self, reference: &Reference) -> impl Iterator<Item = Reference> + use<'a> {
        let before = match reference.kind {
            RULE_STEP => reference.place,
            _ => 0,
        };
        self.references(reference.from).take(before)
    }

    /// Over the references that count.
    fn over(&self, counts: &dyn Fn(&Reference) -> bool) -> u32 {
        self.height(&Way::by(counts))
    }

    /// Over those that are followed, but for some.
    fn without(&self, out: &dyn Fn(&Reference) -> bool) -> u32 {
        self.over(&|reference| self.follows(reference) && !out(reference))
    }

    fn without_facts(&self, out: &dyn Fn(u32) -> bool) -> u32 {
        self.without(&|reference| reference.fact.is_some_and(out))
    }

    fn without_place(&self, kind: u32, place: usize) -> u32 {
        self.without(&|reference| (reference.kind, reference.place) == (kind, place))
    }

    /// Over those that are followed, and premises opposite some conditions.
    fn with_conditions(&self, counts: &dyn Fn(u32) -> bool) -> u32 {
        self.over(&|reference| self.follows(reference) || reference.fact.is_some_and(counts))
    }

    fn height(&self, way: &Way) -> u32 {
        self.height_of(self.asked, way, &mut HashMap::new())
    }

    fn height_of(&self, proof: u32, way: &Way, known: &mut HashMap<u32, u32>) -> u32 {
        if let Some(&height) = known.get(&proof) {
            return if way.again { height } else { 0 };
        }
        let mut lowest = 1;
        let mut greatest = None;
        for reference in self.references(proof) {
            lowest = way.lowest;
            if (way.counts)(&reference) {
                greatest = greatest.max(Some(self.height_of(reference.to, way, known)));
            }
        }
        let height = greatest.map_or(lowest, |height| height + 1);
        known.insert(proof, height);
        height
    }

    fn is_bare(&self, fact: u32) -> bool {
        self.cell(Table::Facts, fact).kind == 1
    }

    fn sides(&self, fact: u32) -> Vec<Cell<'a>> {
        let words = self.cell(Table::Facts, fact).words.iter();
        words
            .map(|&side| self.cell(Table::Expressions, side))
            .collect()
    }

    /// The kind of the primitive that an expression calls.
    fn called(&self, expression: &Cell) -> Option<u32> {
        let is_call = expression.kind == 4;
        is_call.then(|| self.cell(Table::Primitives, expression.words[0]).kind)
    }

    /// A side is a call of a primitive of such a kind.
    fn has_call(&self, fact: u32, wanted: fn(u32) -> bool) -> bool {
        let sides = self.sides(fact);
        sides
            .iter()
            .any(|side| self.called(side).is_some_and(wanted))
    }

    /// A container call is the expression or stands in it.
    fn has_container(&self, expression: &Cell) -> bool {
        let arguments = match expression.kind {
            2..=4 => &expression.words[1..],
            _ => &[],
        };
        let inside = |&argument: &u32| self.has_container(&self.cell(Table::Expressions, argument));
        self.called(expression)
            .is_some_and(primitives::gives_containers)
            || arguments.iter().any(inside)
    }

    /// The proofs that stand opposite a condition of some step.
    fn opposite_conditions(&self) -> HashSet<u32> {
        let proofs = 0..self.job.count(Table::Proofs) as u32;
        let references = proofs.flat_map(|from| self.references(from));
        let opposite = references.filter(|reference| !self.follows(reference));
        opposite.map(|reference| reference.to).collect()
    }
}
