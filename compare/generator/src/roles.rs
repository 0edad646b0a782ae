//! What each word of a cell is.

use job::Table;

#[derive(Clone, Copy, PartialEq, Eq, Debug)]
pub enum Role {
    Name,
    /// A count, an index, or a word of a literal.
    Number,
    /// A cell of a table.
    Reference(Table),
    /// A lower cell of the own table.
    Lower,
}

/// The role of every word of a cell with as many words as its kind has.
pub fn roles(table: Table, kind: u32, words: &[u32]) -> Vec<Role> {
    use Role::*;
    let then = |first: &[Role], rest: Role| {
        let mut roles = first.to_vec();
        roles.resize(words.len().max(first.len()), rest);
        roles
    };
    match (table, kind) {
        (Table::Terms | Table::Expressions, 0) => vec![Number; words.len()],
        (Table::Terms | Table::Expressions, 1) => vec![Name],
        (Table::Expressions, 4) => then(&[Reference(Table::Primitives)], Lower),
        (Table::Terms | Table::Expressions, _) => then(&[Name], Lower),
        (Table::Facts, _) => vec![Reference(Table::Expressions); words.len()],
        (Table::Actions, 0) => vec![Name, Reference(Table::Expressions)],
        (Table::Actions, _) => vec![Reference(Table::Expressions); words.len()],
        (Table::Functions, _) => then(&[Name], Reference(Table::Expressions)),
        (Table::Primitives, _) => vec![Name],
        (Table::Rows, _) => then(&[Reference(Table::Primitives)], Reference(Table::Terms)),
        (Table::Normalisers, _) => vec![Name, Reference(Table::Primitives)],
        (Table::Rules, _) => {
            let mut roles = vec![Name, Number];
            roles.extend(vec![Reference(Table::Facts); counted(words, 1)]);
            roles.resize(words.len(), Reference(Table::Actions));
            roles
        }
        (Table::Proofs, _) => proof_roles(kind, words),
    }
}

/// A count that stands at this place; of a damaged cell, no more than the words that follow.
fn counted(words: &[u32], place: usize) -> usize {
    (words[place] as usize).min(words.len() - place - 1)
}

fn proof_roles(kind: u32, words: &[u32]) -> Vec<Role> {
    use Role::*;
    let mut roles = vec![Reference(Table::Terms); 2];
    match kind {
        1 => {
            roles.extend([Name, Number]);
            roles.extend(vec![Lower; counted(words, 3)]);
            while roles.len() < words.len() {
                roles.extend([Name, Reference(Table::Terms)]);
            }
            roles.truncate(words.len());
        }
        2 => roles.extend([Name, Lower, Lower]),
        5 => roles.extend([Lower, Number, Lower]),
        _ => roles.resize(words.len(), Lower),
    }
    roles
}
