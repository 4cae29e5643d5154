//! A stand-in for thiserror: `derive(Error)` makes the type an error whose text is its `Debug` form. `#[error(..)]` is read over.
use proc_macro::{TokenStream, TokenTree};

#[proc_macro_derive(Error, attributes(error))]
pub fn error(item: TokenStream) -> TokenStream {
    let name = name(item);
    format!(
        "impl ::std::fmt::Display for {name} {{
            fn fmt(&self, f: &mut ::std::fmt::Formatter<'_>) -> ::std::fmt::Result {{
                ::std::fmt::Debug::fmt(self, f)
            }}
        }}
        impl ::std::error::Error for {name} {{}}"
    )
    .parse()
    .unwrap()
}

/// The word after `enum` or `struct`; attributes are groups, so no word of theirs is met.
fn name(item: TokenStream) -> String {
    let mut words = item.into_iter().filter_map(|t| match t {
        TokenTree::Ident(word) => Some(word.to_string()),
        _ => None,
    });
    words.by_ref().find(|w| w == "enum" || w == "struct").unwrap();
    words.next().unwrap()
}
