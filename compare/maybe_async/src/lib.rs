//! Stand-in for the crate `maybe_async` as imago's `sync` feature uses it: what carries
//! `#[maybe_async]` loses every `async` and every `.await`, and is otherwise left as it stands.

use proc_macro::{Group, TokenStream, TokenTree};

/// Strip `async` and `.await` from the item; the attribute's own argument has no meaning here.
#[proc_macro_attribute]
pub fn maybe_async(_argument: TokenStream, item: TokenStream) -> TokenStream {
    strip(item)
}

/// The tokens without `async` and `.await`, inside brackets of every kind too.
fn strip(tokens: TokenStream) -> TokenStream {
    let mut kept = Vec::new();
    let mut rest = tokens.into_iter().peekable();
    while let Some(token) = rest.next() {
        match token {
            TokenTree::Ident(name) if name.to_string() == "async" => (),
            TokenTree::Punct(dot) if dot.as_char() == '.' && is_await(rest.peek()) => {
                rest.next();
            }
            TokenTree::Group(group) => {
                let mut inner = Group::new(group.delimiter(), strip(group.stream()));
                inner.set_span(group.span());
                kept.push(TokenTree::Group(inner));
            }
            other => kept.push(other),
        }
    }
    kept.into_iter().collect()
}

/// Whether the next token is `await`.
fn is_await(token: Option<&TokenTree>) -> bool {
    matches!(token, Some(TokenTree::Ident(name)) if name.to_string() == "await")
}
