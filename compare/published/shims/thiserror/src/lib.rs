//! Stands for thiserror, of which the published files use one derive.
//! It derives nothing: what is compared is which error comes, not how it is worded.
use proc_macro::TokenStream;

#[proc_macro_derive(Error, attributes(error, source))]
pub fn derive_nothing(_: TokenStream) -> TokenStream {
    TokenStream::new()
}
