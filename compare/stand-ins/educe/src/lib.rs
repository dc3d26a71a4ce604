//! Stand-in for `educe`: `Debug` prints the type's name.

use proc_macro::{TokenStream, TokenTree};

#[proc_macro_derive(Educe, attributes(educe))]
pub fn educe(item: TokenStream) -> TokenStream {
    let mut tokens = item.into_iter();
    let name = loop {
        match tokens.next() {
            Some(TokenTree::Ident(word)) if word.to_string() == "struct" => {
                break tokens.next().expect("a name").to_string()
            }
            Some(_) => {}
            None => panic!("a struct is expected"),
        }
    };
    format!(
        "impl ::std::fmt::Debug for {name} {{
            fn fmt(&self, f: &mut ::std::fmt::Formatter<'_>) -> ::std::fmt::Result {{
                f.write_str(\"{name}\")
            }}
        }}"
    )
    .parse()
    .expect("the text above is Rust")
}
