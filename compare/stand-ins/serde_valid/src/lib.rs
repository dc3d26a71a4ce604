//! Stand-in for `serde_valid`: the derive accepts its attributes and writes nothing.

use proc_macro::TokenStream;

#[proc_macro_derive(Validate, attributes(validate))]
pub fn validate(_item: TokenStream) -> TokenStream {
    TokenStream::new()
}
