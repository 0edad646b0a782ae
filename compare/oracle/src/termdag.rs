//! The reached items of the published `termdag.rs`, word for word between the marks; a test
//! compares them with the published file. The rest of this file is shim: terms print as numbers.

use crate::generic_ast::Literal;
use crate::util::{IndexSet, PoolWords, Room, SymbolGen};

// published: begin
pub type TermId = usize;
// published: end

// published: begin
#[allow(rustdoc::private_intra_doc_links)]
/// Like [`Expr`]s but with sharing and deduplication.
///
/// Terms refer to their children indirectly via opaque [TermId]s (internally
/// these are just `usize`s) that map into an ambient [`TermDag`].
#[derive(Clone, PartialEq, Eq, Hash, Debug)]
pub enum Term {
    Lit(Literal),
    Var(String),
    App(String, Vec<TermId>),
}
// published: end

// published: begin
/// A hashconsing arena for [`Term`]s.
#[derive(Clone, PartialEq, Eq, Debug, Default)]
pub struct TermDag {
    /// A bidirectional map between deduplicated `Term`s and indices.
    nodes: IndexSet<Term>,
}
// published: end

impl TermDag {
    // published: begin
    /// Returns the number of nodes in this DAG.
    pub fn size(&self) -> usize {
        self.nodes.len()
    }
    // published: end

    // published: begin
    /// Convert the given id to the corresponding term.
    ///
    /// Panics if the id is not valid.
    pub fn get(&self, id: TermId) -> &Term {
        self.nodes.get_index(id).unwrap()
    }
    // published: end

    // published: begin
    /// Make and return a [`Term::App`] with the given head symbol and children,
    /// and insert into the DAG if it is not already present.
    ///
    /// Panics if any of the children are not already in the DAG.
    pub fn app(&mut self, sym: String, children: Vec<TermId>) -> TermId {
        let node = Term::App(sym, children);

        self.add_node(&node)
    }

    /// Make a [`Term::Lit`] with the given literal and return its [`TermId`],
    /// inserting it into the DAG if it is not already present.
    pub fn lit(&mut self, lit: Literal) -> TermId {
        let node = Term::Lit(lit);

        self.add_node(&node)
    }

    /// Make and return a [`Term::Var`] with the given symbol, and insert into
    /// the DAG if it is not already present.
    pub fn var(&mut self, sym: String) -> TermId {
        let node = Term::Var(sym);

        self.add_node(&node)
    }

    fn add_node(&mut self, node: &Term) -> TermId {
        self.nodes.get_index_of(node).unwrap_or_else(|| {
            let id = self.nodes.len();
            self.nodes.insert(node.clone());
            id
        })
    }
    // published: end
}

impl PoolWords for Term {
    fn pool_words(&self) -> usize {
        match self {
            Term::Lit(_) => 3,
            Term::Var(_) => 1,
            Term::App(_, children) => 1 + children.len(),
        }
    }
}

impl TermDag {
    /// A term by its number, not counted as a step.
    pub fn term(&self, id: TermId) -> &Term {
        &self.nodes[id]
    }

    pub fn set_room(&mut self, room: Room) {
        self.nodes.set_room(room);
    }

    /// The term's number, in place of its text.
    pub fn to_string(&self, term: TermId) -> String {
        term.to_string()
    }

    /// The term's number, in place of its text with let bindings.
    pub fn to_string_with_let(&self, _fresh: &mut SymbolGen, term_id: TermId) -> String {
        term_id.to_string()
    }

    /// Called by the printing of proofs, which is not reached.
    pub(crate) fn to_string_with_let_internal<F: Fn(&str) -> String>(
        &self,
        _fresh: &mut SymbolGen,
        term_id: TermId,
        _buf: &mut String,
        _name_hint_fn: F,
    ) -> String {
        term_id.to_string()
    }
}
