//! Stand-in: derives that accept their attribute and write nothing.

use proc_macro::TokenStream;

#[proc_macro_derive(EnumIter, attributes(strum))]
pub fn enum_iter(_item: TokenStream) -> TokenStream {
    TokenStream::new()
}

#[proc_macro_derive(EnumString, attributes(strum))]
pub fn enum_string(_item: TokenStream) -> TokenStream {
    TokenStream::new()
}

#[proc_macro_derive(Display, attributes(strum))]
pub fn display(_item: TokenStream) -> TokenStream {
    TokenStream::new()
}
