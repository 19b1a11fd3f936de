//! Stands in for the `tracing` crate below the unchanged `grammar.rs`.
//!
//! The grammar marks its rules with `#[tracing::instrument(..)]`. Here that
//! attribute adds what the grammar itself lacks: the depth limit at the six
//! counted rules, refusal 9 after `stmt`, refusal 8 inside `token_stream`, and
//! a count of entries by rule. The derives that `expr_binary.rs` asks for stand
//! here as well; they are empty.

use proc_macro::{Delimiter, Group, TokenStream, TokenTree};

/// The rules whose unfinished entries are the depth.
const COUNTED: [&str; 5] = ["item_use", "pat", "path", "outer_expr_with", "expr_binary"];

/// Wraps a rule by its name. The attribute's own arguments say what to log and
/// mean nothing here.
#[proc_macro_attribute]
pub fn instrument(_args: TokenStream, item: TokenStream) -> TokenStream {
    let mut tokens: Vec<TokenTree> = item.into_iter().collect();
    let name = function_name(&tokens);
    let answer = answer_type(&tokens);

    let Some(TokenTree::Group(body)) = tokens.pop() else {
        panic!("`{name}` does not end with a body");
    };

    let (before, after) = wrapping(&name);
    let mut wrapped = code(&format!("p.reached(crate::coverage::rule::{name});"));

    if after.is_empty() {
        wrapped.extend(code(before));
        wrapped.extend(body.stream());
    } else {
        wrapped.extend(code(before));
        wrapped.extend(code("let __out ="));
        wrapped.extend(called_at_once(answer, body));
        wrapped.extend(code(";"));
        wrapped.extend(code(after));
    }

    tokens.push(Group::new(Delimiter::Brace, wrapped).into());
    tokens.into_iter().collect()
}

/// What stands before and after a rule's body. With nothing after it, the body
/// keeps its place; else it becomes a closure, so that its early returns pass
/// through what comes after.
fn wrapping(name: &str) -> (&'static str, &'static str) {
    match name {
        // Depth is tested before anything else in the rule; a statement that
        // moved nothing is refused once it has ended well.
        "stmt" => (
            "p.enter()?; let __from = p.here();",
            "p.leave(); __out?; p.moved(__from)",
        ),
        // The end is looked for by the stream's own peeks.
        "token_stream" => (
            "p.reached_matcher(matcher); p.set_in_stream(true);",
            "p.set_in_stream(false); __out",
        ),
        name if COUNTED.contains(&name) => ("p.enter()?;", "p.leave(); __out"),
        _ => ("", ""),
    }
}

/// `(|| -> answer { body })()`
fn called_at_once(answer: TokenStream, body: Group) -> TokenStream {
    let mut closure = code("|| ->");
    closure.extend(answer);
    closure.extend([TokenTree::Group(body)]);

    let mut call = TokenStream::new();
    call.extend([
        TokenTree::Group(Group::new(Delimiter::Parenthesis, closure)),
        TokenTree::Group(Group::new(Delimiter::Parenthesis, TokenStream::new())),
    ]);
    call
}

/// The name after `fn`.
fn function_name(tokens: &[TokenTree]) -> String {
    let at = tokens.iter().position(|t| t.to_string() == "fn");
    let at = at.expect("#[instrument] stands on a function");
    tokens[at + 1].to_string()
}

/// The tokens between `->` and the body.
fn answer_type(tokens: &[TokenTree]) -> TokenStream {
    let arrow = tokens.windows(2).position(|pair| match pair {
        [TokenTree::Punct(a), TokenTree::Punct(b)] => a.as_char() == '-' && b.as_char() == '>',
        _ => false,
    });
    let from = arrow.expect("an instrumented function has an answer") + 2;
    tokens[from..tokens.len() - 1].iter().cloned().collect()
}

fn code(text: &str) -> TokenStream {
    text.parse().expect("code of this crate")
}

/// Empty: the grammar needs no fallible clone.
#[proc_macro_derive(TryClone, attributes(try_clone))]
pub fn try_clone(_item: TokenStream) -> TokenStream {
    TokenStream::new()
}

/// Empty: the grammar writes no tokens back.
#[proc_macro_derive(ToTokens, attributes(rune))]
pub fn to_tokens(_item: TokenStream) -> TokenStream {
    TokenStream::new()
}

/// Empty: the grammar asks no tree for its span.
#[proc_macro_derive(Spanned, attributes(rune))]
pub fn spanned(_item: TokenStream) -> TokenStream {
    TokenStream::new()
}
