//! Stands in for the crate `thiserror`: an error's text is its `Debug` text.
use proc_macro::{TokenStream, TokenTree};

#[proc_macro_derive(Error, attributes(error, source, from))]
pub fn derive(input: TokenStream) -> TokenStream {
    let mut tokens = input.into_iter();
    let mut name = String::new();
    while let Some(token) = tokens.next() {
        let TokenTree::Ident(word) = &token else {
            continue;
        };
        if matches!(word.to_string().as_str(), "enum" | "struct") {
            name = tokens.next().unwrap().to_string();
            break;
        }
    }
    format!(
        "impl ::core::fmt::Display for {name} {{
            fn fmt(&self, f: &mut ::core::fmt::Formatter<'_>) -> ::core::fmt::Result {{
                ::core::fmt::Debug::fmt(self, f)
            }}
        }}
        impl ::std::error::Error for {name} {{}}"
    )
    .parse()
    .unwrap()
}
