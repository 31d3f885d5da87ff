//! `#[derive(From)]` for `struct Name(Type);`, the only form graph.rs uses.

use proc_macro::{Delimiter, TokenStream, TokenTree};

/// Derives `From<Type>` for a tuple struct of one field.
#[proc_macro_derive(From)]
pub fn derive_from(input: TokenStream) -> TokenStream {
    let code = match name_and_field(input) {
        Some((name, field)) => format!(
            "impl ::core::convert::From<{field}> for {name} {{
                fn from(value: {field}) -> Self {{ {name}(value) }}
            }}"
        ),
        None => "compile_error!(\"this From takes a tuple struct of one field\");".to_string(),
    };
    code.parse().expect("the code above is Rust")
}

/// The struct's name and the type of its field; `None` for any other form.
fn name_and_field(input: TokenStream) -> Option<(String, String)> {
    // Doc comments and the visibility stand before the word `struct`.
    let mut tokens = input
        .into_iter()
        .skip_while(|token| !is_word(token, "struct"));
    tokens.next()?;
    let name = tokens.next()?;
    let Some(TokenTree::Group(fields)) = tokens.next() else {
        return None;
    };
    if fields.delimiter() != Delimiter::Parenthesis {
        return None;
    }
    let field: Vec<TokenTree> = fields.stream().into_iter().collect();
    match field.as_slice() {
        [ty @ TokenTree::Ident(_)] => Some((name.to_string(), ty.to_string())),
        [public, ty @ TokenTree::Ident(_)] if is_word(public, "pub") => {
            Some((name.to_string(), ty.to_string()))
        }
        _ => None,
    }
}

fn is_word(token: &TokenTree, word: &str) -> bool {
    matches!(token, TokenTree::Ident(ident) if ident.to_string() == word)
}
