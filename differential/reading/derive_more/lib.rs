//! Stands in for `derive_more::Debug`, which symbol.rs asks for: the type's name is shown and
//! nothing else. Each type there has one lifetime. No answer is made of this text.

use proc_macro::{TokenStream, TokenTree};

#[proc_macro_derive(Debug, attributes(debug))]
pub fn debug(item: TokenStream) -> TokenStream {
    let mut words = item.into_iter().filter_map(|tree| match tree {
        TokenTree::Ident(word) => Some(word.to_string()),
        _ => None,
    });
    let name = words
        .find(|word| word == "struct")
        .and_then(|_| words.next())
        .expect("a struct has a name");
    format!(
        "impl std::fmt::Debug for {name}<'_> {{
            fn fmt(&self, f: &mut std::fmt::Formatter<'_>) -> std::fmt::Result {{
                f.write_str({name:?})
            }}
        }}"
    )
    .parse()
    .expect("this is Rust")
}
