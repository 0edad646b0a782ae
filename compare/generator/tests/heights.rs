//! Heights by the published text itself: it follows a reference if an eval there is refused.

use std::collections::HashMap;

use generator::{Case, condition_job, counting_job, job};
use job::{OwnedCell, Table, Tables};

const SEEDS: u64 = 1_500;
/// Of jobs with more proofs, few are needed.
const PROOFS: u32 = 60;
const EVAL: u32 = 7;

/// The places of a proof's references among its words.
fn references(cell: &OwnedCell) -> Vec<usize> {
    match cell.kind {
        1 => (4..4 + cell.words[3] as usize).collect(),
        2 => vec![3, 4],
        5 => vec![2, 4],
        _ => (2..cell.words.len()).collect(),
    }
}

/// The case with an eval before all proofs.
struct WithEval {
    case: Case,
    tables: Tables,
}

impl WithEval {
    fn new(case: &Case) -> WithEval {
        let mut tables = Tables::read(&case.job).expect("a job");
        let proofs = tables.of_mut(Table::Proofs);
        for cell in proofs.iter_mut() {
            for place in references(cell) {
                cell.words[place] += 1;
            }
        }
        let (kind, words) = (EVAL, vec![0, 0]);
        proofs.insert(0, OwnedCell { kind, words });
        let case = Case {
            asked: case.asked + 1,
            scratch: case.scratch + 2,
            ..case.clone()
        };
        WithEval { case, tables }
    }

    fn answer(&self, tables: &Tables) -> [u32; 8] {
        let job = tables.words();
        let case = Case {
            job,
            ..self.case.clone()
        };
        case.judge().expect("few steps").answer
    }

    /// The check comes to the eval where this reference leads there.
    fn is_followed(&self, proof: u32, place: usize) -> bool {
        let mut tables = self.tables.clone();
        tables.of_mut(Table::Proofs)[proof as usize].words[place] = 0;
        let answer = self.answer(&tables);
        assert!(matches!(answer[0], 0 | 41), "{answer:?}");
        answer[0] == 41
    }

    fn height(&self, proof: u32, known: &mut HashMap<u32, u32>) -> u32 {
        if let Some(&height) = known.get(&proof) {
            return height;
        }
        let cell = &self.tables.of(Table::Proofs)[proof as usize];
        let places = references(cell).into_iter();
        let followed = places.filter(|&place| self.is_followed(proof, place));
        let greatest = followed
            .map(|place| self.height(cell.words[place], known))
            .max();
        let height = greatest.unwrap_or(0) + 1;
        known.insert(proof, height);
        height
    }
}

/// Each accepted job's height is that over the references that the text follows.
#[test]
fn over_what_the_text_follows() {
    for made in [job, counting_job, condition_job] {
        let mut compared = 0;
        for case in (0..SEEDS).map(made) {
            let answer = case.judge().expect("few steps").answer;
            if answer[0] != 0 || case.job[10] > PROOFS {
                continue;
            }
            let with_eval = WithEval::new(&case);
            assert_eq!(with_eval.answer(&with_eval.tables), answer);
            let height = with_eval.height(with_eval.case.asked, &mut HashMap::new());
            assert_eq!(height, answer[4]);
            compared += 1;
        }
        assert!(compared > 300, "{compared}");
    }
}
