//! A stand-in for the crate thiserror: `#[derive(Error)]` on a struct with one
//! `#[error("format", .field, ..)]`, as scanner.rs uses it, and nothing more.
use proc_macro::{Delimiter, Group, Ident, Span, TokenStream, TokenTree};

#[proc_macro_derive(Error, attributes(error))]
pub fn derive(item: TokenStream) -> TokenStream {
    let item: Vec<TokenTree> = item.into_iter().collect();
    let name = struct_name(&item).expect("derive(Error) stands on a struct");
    let arguments = error_arguments(&item).expect("derive(Error) needs #[error(..)]");
    let format = Group::new(Delimiter::Parenthesis, with_self(arguments));
    format!(
        "impl core::fmt::Display for {name} {{
             fn fmt(&self, f: &mut core::fmt::Formatter<'_>) -> core::fmt::Result {{
                 f.write_fmt(format_args!{format})
             }}
         }}
         impl core::error::Error for {name} {{}}"
    )
    .parse()
    .expect("two impls")
}

fn struct_name(item: &[TokenTree]) -> Option<&TokenTree> {
    let at = item.iter().position(|token| token.to_string() == "struct")?;
    item.get(at + 1)
}

fn error_arguments(item: &[TokenTree]) -> Option<TokenStream> {
    item.iter().find_map(|token| {
        let TokenTree::Group(attribute) = token else { return None };
        let inner: Vec<TokenTree> = attribute.stream().into_iter().collect();
        match &inner[..] {
            [TokenTree::Ident(name), TokenTree::Group(arguments)]
                if attribute.delimiter() == Delimiter::Bracket && name.to_string() == "error" =>
            {
                Some(arguments.stream())
            }
            _ => None,
        }
    })
}

/// `.field` after a comma stands for `self.field`.
fn with_self(arguments: TokenStream) -> TokenStream {
    let mut out = Vec::new();
    let mut after_comma = false;
    for token in arguments {
        let mark = match &token {
            TokenTree::Punct(mark) => Some(mark.as_char()),
            _ => None,
        };
        if after_comma && mark == Some('.') {
            out.push(TokenTree::Ident(Ident::new("self", Span::call_site())));
        }
        after_comma = mark == Some(',');
        out.push(token);
    }
    out.into_iter().collect()
}
