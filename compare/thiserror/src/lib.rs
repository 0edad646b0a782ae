//! Stands in for the `thiserror` crate. The published text derives `Error` for a tuple struct
//! and an enum. Message texts are left out by document 01, so the derive writes none: for the
//! tuple struct it gives a reader of its private field, for the enum nothing.

use proc_macro::{Delimiter, TokenStream, TokenTree};

#[proc_macro_derive(Error, attributes(error))]
pub fn derive_error(input: TokenStream) -> TokenStream {
    match tuple_struct(input) {
        Some((name, field)) => reader(&name, &field),
        None => TokenStream::new(),
    }
}

/// The name and the field type of a tuple struct with one field.
fn tuple_struct(input: TokenStream) -> Option<(String, String)> {
    let mut tokens = input
        .into_iter()
        .skip_while(|token| token.to_string() != "struct");
    tokens.next()?;
    let name = tokens.next()?.to_string();
    match tokens.next()? {
        TokenTree::Group(group) if group.delimiter() == Delimiter::Parenthesis => {
            Some((name, group.stream().to_string()))
        }
        _ => None,
    }
}

fn reader(name: &str, field: &str) -> TokenStream {
    let text = format!(
        "impl {name} {{ /// The private field.\n pub(crate) fn kind(&self) -> &{field} {{ &self.0 }} }}"
    );
    text.parse().expect("an impl")
}
