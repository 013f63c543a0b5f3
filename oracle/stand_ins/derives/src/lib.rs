//! Derives of the names that felica-rs takes from thiserror and zeroize. They take the attributes and make nothing: no parser needs what they would make.
use proc_macro::TokenStream;

#[proc_macro_derive(Error, attributes(error, from, source))]
pub fn error(_: TokenStream) -> TokenStream {
    TokenStream::new()
}

#[proc_macro_derive(Zeroize, attributes(zeroize))]
pub fn zeroize(_: TokenStream) -> TokenStream {
    TokenStream::new()
}

#[proc_macro_derive(ZeroizeOnDrop, attributes(zeroize))]
pub fn zeroize_on_drop(_: TokenStream) -> TokenStream {
    TokenStream::new()
}
