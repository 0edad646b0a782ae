//! Shim: the names by which the text recognises an extracted proof term. Not reached.

#[derive(Clone, Debug, Default)]
pub struct EncodingNames {
    pub fiat_constructor: String,
    pub rule_constructor: String,
    pub merge_fn_constructor: String,
    pub eq_trans_constructor: String,
    pub eq_sym_constructor: String,
    pub congr_constructor: String,
    pub container_normalize_constructor: String,
    pub eval_constructor: String,
    pub pnil: String,
    pub pcons: String,
}
