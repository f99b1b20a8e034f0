//! Stands in for the crate serde_derive: the two derives that the published config.rs names. What they derive is
//! never called, since reading and writing settings is no part of what is compared.
use proc_macro::{TokenStream, TokenTree};

fn name(item: TokenStream) -> String {
    let mut words = item.into_iter();
    while let Some(token) = words.next() {
        if matches!(&token, TokenTree::Ident(word) if word.to_string() == "struct")
            && let Some(TokenTree::Ident(name)) = words.next()
        {
            return name.to_string();
        }
    }
    panic!("only structs are derived here")
}

#[proc_macro_derive(Serialize, attributes(serde))]
pub fn serialize(item: TokenStream) -> TokenStream {
    format!("impl serde::Serialize for {} {{}}", name(item)).parse().unwrap()
}

#[proc_macro_derive(Deserialize, attributes(serde))]
pub fn deserialize(item: TokenStream) -> TokenStream {
    format!(
        "impl<'de> serde::Deserialize<'de> for {} {{ fn deserialize<D: serde::Deserializer<'de>>(_: D) \
         -> Result<Self, D::Error> {{ unimplemented!() }} }}",
        name(item)
    )
    .parse()
    .unwrap()
}
