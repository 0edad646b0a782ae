//! The published proof format and proof checker, whole.

#[allow(dead_code)]
#[rustfmt::skip]
#[path = "../../egglog/proof_checker.rs"]
pub mod proof_checker;

pub mod proof_encoding_helpers;

#[allow(dead_code)]
pub mod proof_format {
    include!("../../egglog/proof_format.rs");

    // Shim: the text makes a store from an extracted proof term; a job gives its parts.

    impl crate::util::PoolWords for RawProof {
        fn pool_words(&self) -> usize {
            0
        }
    }

    impl ProofStore {
        pub(crate) fn from_parts(
            term_dag: TermDag,
            container_normalizers: HashMap<String, PrimitiveValidator>,
        ) -> ProofStore {
            ProofStore {
                term_dag,
                proof_id: HashMap::default(),
                id_to_proof: DenseIdMap::new(),
                container_normalizers,
            }
        }

        pub(crate) fn push(&mut self, proposition: Proposition, justification: Justification) {
            self.id_to_proof.push(Proof {
                proposition,
                justification,
            });
        }
    }
}
