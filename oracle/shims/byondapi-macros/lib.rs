//! The real macros export a function to the game engine; here it stays as it is.

use proc_macro::TokenStream;

#[proc_macro_attribute]
pub fn bind(_words: TokenStream, item: TokenStream) -> TokenStream {
    item
}

#[proc_macro_attribute]
pub fn init(_words: TokenStream, item: TokenStream) -> TokenStream {
    item
}
