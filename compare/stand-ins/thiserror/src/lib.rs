//! Stand-in for `thiserror`: the text of an error is its name.

use proc_macro::{TokenStream, TokenTree};

#[proc_macro_derive(Error, attributes(error))]
pub fn error(item: TokenStream) -> TokenStream {
    let mut tokens = item.into_iter();
    let name = loop {
        match tokens.next() {
            Some(TokenTree::Ident(word)) if matches!(&*word.to_string(), "struct" | "enum") => {
                break tokens.next().expect("a name").to_string()
            }
            Some(_) => {}
            None => panic!("a struct or an enum is expected"),
        }
    };
    format!(
        "impl ::std::fmt::Display for {name} {{
            fn fmt(&self, f: &mut ::std::fmt::Formatter<'_>) -> ::std::fmt::Result {{
                f.write_str(\"{name}\")
            }}
        }}
        impl ::std::error::Error for {name} {{}}"
    )
    .parse()
    .expect("the text above is Rust")
}
