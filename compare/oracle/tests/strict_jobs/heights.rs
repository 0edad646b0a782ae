//! Heights: only references that the check follows count, in either mode. Most steps here claim that 1 is 1,
//! so that any of them may stand opposite the fact 1; x is 1.

use job::Tables;
use job::limits::FACTS;
use job::primitives::{DIFFERENCE, NEGATION, PRODUCT, QUOTIENT};

use super::*;

/// Facts by their numbers: c(x), c(x) = 2, 2 = c(x), y = c(x), c(x) = c(x), and 1.
const BARE: u32 = 0;
const LEFT: u32 = 1;
const RIGHT: u32 = 2;
const BINDING: u32 = 3;
const TWO_CALLS: u32 = 4;
const ORDINARY: u32 = 5;

const CONDITIONS: [u32; 5] = [BARE, LEFT, RIGHT, BINDING, TWO_CALLS];

/// Appends a cell and what it needs.
type Make = fn(&mut Tables) -> u32;

/// The action 1, and the first of many rules' names.
const HEAD: u32 = 0;
const RULES: u32 = 100;

fn with_facts() -> Tables {
    let mut tables = start();
    let call = tables.primitive_call(CONTAINER_C, &[VARIABLE_X]);
    tables.bare(call);
    for (left, right) in [(call, TWO), (TWO, call), (VARIABLE_Y, call), (call, call)] {
        tables.equality(left, right);
    }
    tables.bare(ONE);
    tables.expression_action(ONE);
    tables
}

/// Symmetries over a proof that a term equals itself.
fn over(tables: &mut Tables, term: u32, proof: u32, steps: u32) -> u32 {
    (0..steps).fold(proof, |below, _| tables.symmetry((term, term), below))
}

/// A proof of this height that a literal equals itself.
fn high_of(tables: &mut Tables, term: u32, height: u32) -> u32 {
    let fiat = tables.fiat((term, term));
    over(tables, term, fiat, height - 1)
}

fn high(tables: &mut Tables, height: u32) -> u32 {
    high_of(tables, ONE, height)
}

/// A step by a rule of its own with this head and these facts, each with what stands opposite.
fn by_rule(tables: &mut Tables, term: u32, head: u32, facts: &[(u32, u32)]) -> u32 {
    let name = RULES + tables.count(Table::Rules);
    let (facts, premises): (Vec<u32>, Vec<u32>) = facts.iter().copied().unzip();
    tables.rule(name, &facts, &[head]);
    tables.rule_step((term, term), name, &premises, &[(X, ONE)])
}

fn by(tables: &mut Tables, facts: &[(u32, u32)]) -> u32 {
    by_rule(tables, ONE, HEAD, facts)
}

/// A step by a rule without facts, whose head is the call.
fn given(tables: &mut Tables, term: u32, call: u32) -> u32 {
    let head = tables.expression_action(call);
    by_rule(tables, term, head, &[])
}

/// A job that claims a term equal to itself, with this height in both modes.
fn of_term(name: &'static str, tables: Tables, term: u32, height: u32) -> HandMade {
    HandMade::new(name, tables).both(0, &[term, term, height], &[])
}

fn of_height(name: &'static str, height: u32, make: impl FnOnce(&mut Tables)) -> HandMade {
    let mut tables = with_facts();
    make(&mut tables);
    of_term(name, tables, ONE, height)
}

/// Steps with conditions alone, opposite high proofs.
pub fn heights_of_conditions() -> Vec<HandMade> {
    let alone = CONDITIONS.map(|condition| {
        of_height("one condition", 1, |tables| {
            let high = high(tables, 40);
            by(tables, &[(condition, high)]);
        })
    });
    let below = CONDITIONS.map(|condition| {
        of_height("below symmetries", 4, |tables| {
            let high = high(tables, 40);
            let step = by(tables, &[(condition, high)]);
            over(tables, ONE, step, 3);
        })
    });
    let full = of_height("16 conditions", 1, |tables| {
        let facts: Vec<(u32, u32)> = (0..FACTS)
            .map(|place| {
                let high = high(tables, 2 + place as u32);
                (CONDITIONS[place % CONDITIONS.len()], high)
            })
            .collect();
        by(tables, &facts);
    });
    let unevaluated = of_height("without validator", 1, |tables| {
        let condition = condition(tables, WITHOUT_VALIDATOR, &[VARIABLE_X]);
        let high = high(tables, 40);
        by(tables, &[(condition, high)]);
    })
    .strict(51, &[NO_VALIDATOR], &[]);
    let others = [full, unevaluated].into_iter();
    alone.into_iter().chain(below).chain(others).collect()
}

/// Steps with conditions opposite conditions, and followed.
pub fn heights_nested() -> Vec<HandMade> {
    vec![
        of_height("conditions opposite a condition", 1, |tables| {
            let high = high(tables, 5);
            let inner = by(tables, &[(BARE, high), (LEFT, high)]);
            by(tables, &[(RIGHT, inner)]);
        }),
        of_height("an ordinary fact opposite a condition", 1, |tables| {
            let high = high(tables, 5);
            let inner = by(tables, &[(ORDINARY, high)]);
            by(tables, &[(BARE, inner)]);
        }),
        of_height("followed conditions", 2, |tables| {
            let high = high(tables, 9);
            let inner = by(tables, &[(BARE, high), (BINDING, high)]);
            by(tables, &[(ORDINARY, inner)]);
        }),
        of_height("followed conditions and an ordinary fact", 4, |tables| {
            let [two, nine, thirty] = [2, 9, 30].map(|height| high(tables, height));
            let inner = by(tables, &[(BARE, nine), (ORDINARY, two)]);
            by(tables, &[(ORDINARY, inner), (LEFT, thirty)]);
        }),
        of_height("each opposite the next", 1, |tables| {
            let mut below = high(tables, 3);
            for condition in CONDITIONS {
                below = by(tables, &[(condition, below)]);
            }
        }),
        of_height("every second one opposite the next", 2, |tables| {
            let mut below = high(tables, 3);
            for condition in CONDITIONS {
                let step = by(tables, &[(condition, below)]);
                below = by(tables, &[(ORDINARY, step)]);
            }
        }),
        of_height("each followed, each opposite a high one", 6, |tables| {
            let mut below = high(tables, 1);
            for condition in CONDITIONS {
                let high = over(tables, ONE, below, 20);
                below = by(tables, &[(condition, high), (ORDINARY, below)]);
            }
        }),
    ]
}

/// Both orders of two facts, or of two proofs.
fn both_orders<T: Copy>([one, other]: [T; 2]) -> [[T; 2]; 2] {
    [[one, other], [other, one]]
}

/// What stands opposite a condition is followed elsewhere: by the same step, below it, or above it.
pub fn heights_shared() -> Vec<HandMade> {
    let mut made = Vec::new();
    for order in both_orders([0, 1]) {
        let in_order = |facts: [(u32, u32); 2]| order.map(|place| facts[place]);
        made.push(of_height("by the same step", 6, |tables| {
            let high = high(tables, 5);
            by(tables, &in_order([(BARE, high), (ORDINARY, high)]));
        }));
        made.push(of_height("below the step", 7, |tables| {
            let high = high(tables, 5);
            let higher = over(tables, ONE, high, 1);
            by(tables, &in_order([(LEFT, high), (ORDINARY, higher)]));
        }));
        made.push(of_height("by a lower one of the same step", 6, |tables| {
            let high = high(tables, 5);
            let higher = over(tables, ONE, high, 1);
            by(tables, &in_order([(RIGHT, higher), (ORDINARY, high)]));
        }));
        made.push(of_height("by the step above", 6, |tables| {
            let high = high(tables, 5);
            let step = by(tables, &[(BARE, high)]);
            by(tables, &in_order([(ORDINARY, step), (ORDINARY, high)]));
        }));
        made.push(of_height("two steps, one opposite", 6, |tables| {
            let high = high(tables, 5);
            let step = by(tables, &[(BINDING, high)]);
            by(tables, &in_order([(BARE, step), (ORDINARY, high)]));
        }));
        made.push(of_height("a step with conditions", 2, |tables| {
            let high = high(tables, 5);
            let step = by(tables, &[(LEFT, high)]);
            by(tables, &in_order([(BARE, step), (ORDINARY, step)]));
        }));
        for step_first in [true, false] {
            made.push(of_height("by a step beside it", 7, |tables| {
                let high = high(tables, 5);
                let mut sides = [high; 2];
                for place in if step_first { [0, 1] } else { [1, 0] } {
                    sides[place] = match place {
                        0 => by(tables, &[(BARE, high)]),
                        _ => over(tables, ONE, high, 1),
                    };
                }
                let [left, right] = order.map(|place| sides[place]);
                tables.transitivity((ONE, ONE), left, right);
            }));
        }
    }
    made
}

/// A bare and an equality condition with an ordinary fact in one rule, in all orders; several ordinary facts.
pub fn heights_among_facts() -> Vec<HandMade> {
    let among = |facts: &[(u32, u32)], height: u32| {
        of_height("among conditions", height, |tables| {
            let opposite = facts
                .iter()
                .map(|&(fact, height)| (fact, high(tables, height)));
            let facts: Vec<(u32, u32)> = opposite.collect();
            by(tables, &facts);
        })
    };
    let mut made = Vec::new();
    for equality in [LEFT, RIGHT, BINDING, TWO_CALLS] {
        let facts = [(BARE, 7), (equality, 5), (ORDINARY, 3)];
        for [first, second, third] in [
            [0, 1, 2],
            [0, 2, 1],
            [1, 0, 2],
            [1, 2, 0],
            [2, 0, 1],
            [2, 1, 0],
        ] {
            made.push(among(&[facts[first], facts[second], facts[third]], 4));
        }
    }
    for conditions in both_orders([(BARE, 9), (LEFT, 8)]) {
        for [first, second, third] in [[4, 2, 3], [2, 4, 3], [2, 3, 4]] {
            let [one, other] = conditions;
            let facts = [
                (ORDINARY, first),
                one,
                (ORDINARY, second),
                other,
                (ORDINARY, third),
            ];
            made.push(among(&facts, 5));
        }
    }
    made
}

/// A proof that was checked before counts: p is 4 high, its symmetry 5.
pub fn heights_checked_before() -> Vec<HandMade> {
    let mut made = Vec::new();
    for order in both_orders([0, 1]) {
        let sides = |tables: &mut Tables| {
            let proof = high(tables, 4);
            let sides = [proof, over(tables, ONE, proof, 1)];
            order.map(|place| sides[place])
        };
        made.push(of_height("a transitivity", 6, |tables| {
            let [left, right] = sides(tables);
            tables.transitivity((ONE, ONE), left, right);
        }));
        made.push(of_height("two ordinary facts", 6, |tables| {
            let [first, second] = sides(tables);
            by(
                tables,
                &[(ORDINARY, first), (BARE, second), (ORDINARY, second)],
            );
        }));
        made.push(of_height("two steps", 8, |tables| {
            let [first, second] = sides(tables);
            let low = by(tables, &[(ORDINARY, first), (ORDINARY, second)]);
            let again = by(tables, &[(LEFT, low), (ORDINARY, second), (ORDINARY, low)]);
            tables.transitivity((ONE, ONE), low, again);
        }));
    }
    made.push(of_height("twice the same", 5, |tables| {
        let proof = high(tables, 4);
        tables.transitivity((ONE, ONE), proof, proof);
    }));
    made.push(of_height("doubling", 121, |tables| {
        let mut proof = high(tables, 1);
        for _ in 0..60 {
            let again = over(tables, ONE, proof, 1);
            proof = tables.transitivity((ONE, ONE), proof, again);
        }
    }));
    made
}

/// What stands opposite a condition would be refused.
pub fn heights_unchecked() -> Vec<HandMade> {
    let refused: [Make; 4] = [
        |tables| tables.eval((ONE, ONE)),
        |tables| tables.fiat((ONE, TWO)),
        |tables| tables.rule_step((ONE, ONE), OTHER_RULE, &[], &[]),
        |tables| {
            let fiat = tables.fiat((ONE, ONE));
            let step = by(tables, &[(ORDINARY, fiat)]);
            let name = tables.of(Table::Proofs)[step as usize].words[2];
            tables.rule_step((ONE, ONE), name, &[fiat, step], &[])
        },
    ];
    let mut made = Vec::new();
    for opposite in refused {
        for condition in CONDITIONS {
            made.push(of_height("alone", 1, |tables| {
                let refused = opposite(tables);
                by(tables, &[(condition, refused)]);
            }));
            made.push(of_height("below others", 3, |tables| {
                let refused = opposite(tables);
                let high_one = over(tables, ONE, refused, 4);
                let good = high(tables, 2);
                by(tables, &[(condition, high_one), (ORDINARY, good)]);
            }));
        }
    }
    made
}

/// Facts that are no conditions: calls that compute or look rows up, also of container calls, and a function.
pub fn heights_of_ordinary_facts() -> Vec<HandMade> {
    let mut made = Vec::new();
    let calls: [(u32, Make); 8] = [
        (TWO, |tables| tables.primitive_call(SUM_OF_TWO, &[ONE, ONE])),
        (ONE, |tables| computed(tables, DIFFERENCE, &[TWO, ONE])),
        (TWO, |tables| computed(tables, PRODUCT, &[ONE, TWO])),
        (ONE, |tables| {
            tables.term_integer(-1);
            let less_one = tables.integer(-1);
            computed(tables, NEGATION, &[less_one])
        }),
        (TWO, |tables| computed(tables, QUOTIENT, &[TWO, ONE])),
        (ONE, |tables| {
            tables.primitive_call(LOOKED_UP, &[VARIABLE_X])
        }),
        (ONE, |tables| {
            let container = tables.primitive_call(CONTAINER_D, &[TWO]);
            tables.primitive_call(LOOKED_UP, &[container])
        }),
        (TWO, |tables| {
            let container = tables.primitive_call(CONTAINER_D, &[TWO]);
            tables.primitive_call(SUM_OF_TWO, &[container, container])
        }),
    ];
    for (value, call) in calls {
        let facts: [fn(&mut Tables, u32, u32) -> u32; 3] = [
            |tables, call, _| tables.bare(call),
            |tables, call, value| tables.equality(call, value),
            |tables, call, value| tables.equality(value, call),
        ];
        for fact in facts {
            made.push(of_height("a call", 4, |tables| {
                let call = call(tables);
                let fact = fact(tables, call, value);
                let premise = high_of(tables, value, 3);
                let high = high(tables, 9);
                by(tables, &[(fact, premise), (BARE, high)]);
            }));
        }
    }
    made.push(function_fact());
    made
}

/// A call of a primitive of this kind, which is new.
fn computed(tables: &mut Tables, kind: u32, arguments: &[u32]) -> u32 {
    let primitive = tables.primitive(kind, Z);
    tables.primitive_call(primitive, arguments)
}

/// F(1) = x, opposite F(1, 1).
fn function_fact() -> HandMade {
    let mut tables = with_facts();
    let view = tables.term_application(F, &[ONE, ONE]);
    let head = tables.constructor(F, &[ONE, ONE]);
    let given = given(&mut tables, view, head);
    let premise = over(&mut tables, view, given, 2);
    let call = tables.custom(F, &[ONE]);
    let fact = tables.equality(call, VARIABLE_X);
    by(&mut tables, &[(fact, premise)]);
    of_term("a function fact", tables, ONE, 4)
}

/// All references of steps by no rule count: each in turn is 5 high.
pub fn heights_of_other_steps() -> Vec<HandMade> {
    let mut made = Vec::new();
    for [first, second] in both_orders([5, 1]) {
        made.push(of_height("transitivity", 6, |tables| {
            let [left, right] = [first, second].map(|height| high(tables, height));
            tables.transitivity((ONE, ONE), left, right);
        }));
        made.push(congruence(first, second));
        made.push(merge(first, second));
    }
    made.push(of_height("symmetry", 6, |tables| {
        let proof = high(tables, 5);
        tables.symmetry((ONE, ONE), proof);
    }));
    made.push(of_height("normalisation", 6, |tables| {
        let proof = high(tables, 5);
        tables.normalisation((ONE, ONE), proof);
    }));
    made
}

/// F(1) = F(1), the base and the child of these heights.
fn congruence(base: u32, child: u32) -> HandMade {
    let mut tables = with_facts();
    let term = tables.term_application(F, &[ONE]);
    let call = tables.constructor(F, &[ONE]);
    let given = given(&mut tables, term, call);
    let base = over(&mut tables, term, given, base - 1);
    let child = high(&mut tables, child);
    tables.congruence((term, term), base, 0, child);
    of_term("congruence", tables, term, 6)
}

/// The view F(1), merged with itself: old and new of these heights.
fn merge(old: u32, new: u32) -> HandMade {
    let mut tables = with_facts();
    let view = tables.term_application(F, &[ONE]);
    let call = tables.constructor(F, &[ONE]);
    tables.function(F, ONE);
    let given = given(&mut tables, view, call);
    let [old, new] = [old, new].map(|height| over(&mut tables, view, given, height - 1));
    tables.merge_step((view, view), F, old, new);
    of_term("merge", tables, view, 6)
}
