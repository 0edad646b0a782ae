//! Strict mode by the published text: but for what it binds, a bare container condition is then an
//! equality of its call with a variable that stands nowhere else in the job.

use std::collections::HashSet;

use job::{Job, Table, Tables, modes};

/// The first name that is not reserved.
const FIRST_NAME: u32 = 4;

/// The job with such an equality in place of each bare container condition, where it has one. The
/// variables stand behind all other expressions, so that every number stays; there may be more than the
/// load checks allow.
pub fn rewritten(words: &[u32]) -> Option<Vec<u32>> {
    let job = Job::read(words).expect("a job that passed the load checks");
    let conditions = modes::bare_containers(&job);
    if conditions.is_empty() {
        return None;
    }
    let mut tables = Tables::read(words).expect("a job with formed ends");
    let mut names = unused_names(words);
    for condition in conditions {
        let name = names.next().expect("more names than words");
        let variable = tables.variable(name);
        let fact = &mut tables.of_mut(Table::Facts)[condition as usize];
        fact.kind = 0;
        fact.words.push(variable);
    }
    Some(tables.words())
}

/// Names that no word of the job is.
fn unused_names(words: &[u32]) -> impl Iterator<Item = u32> {
    let used: HashSet<u32> = words.iter().copied().collect();
    (FIRST_NAME..=u32::MAX).filter(move |name| !used.contains(name))
}
