//! Stands for serde, of which the published files use one derive.
//! It derives nothing: neither the reader nor the writer deserializes.
use proc_macro::TokenStream;

#[proc_macro_derive(Deserialize)]
pub fn derive_nothing(_: TokenStream) -> TokenStream {
    TokenStream::new()
}
