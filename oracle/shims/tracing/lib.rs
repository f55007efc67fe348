//! `#[tracing::instrument(skip_all)]`, which katmos.rs puts on its functions under the feature "tracy", is where the runs look in: the
//! function becomes public, and `crate::watch` is told what it was asked and what it answered. The text itself stays as it is. Beside
//! `explosively_depressurize` stands `depressurize_mended`: the same body with one word mended, which points arrows towards space.

use proc_macro::{Delimiter, Spacing, TokenStream, TokenTree};

/// The text's line for the turf that a turf's air goes to: it names the turf itself once more.
const SLIP: &str = "let mut byond_turf_adj = ByondValue::new_ref(ValueType::Turf, cur_mixture.id);";
/// The line with that word mended.
const MENDED: &str = "let mut byond_turf_adj = ByondValue::new_ref(ValueType::Turf, adj_mixture.id);";

/// Tokens as text, spaced by one rule, however they were written.
fn spaced(tokens: TokenStream) -> String {
    let word = |token| match token {
        TokenTree::Group(group) => {
            let (open, close) = match group.delimiter() {
                Delimiter::Parenthesis => ("(", ")"),
                Delimiter::Brace => ("{", "}"),
                Delimiter::Bracket => ("[", "]"),
                Delimiter::None => ("", ""),
            };
            format!("{open} {}{close} ", spaced(group.stream()))
        }
        TokenTree::Punct(sign) if sign.spacing() == Spacing::Joint => sign.as_char().to_string(),
        other => format!("{other} "),
    };
    tokens.into_iter().map(word).collect()
}

/// A body with the slip mended, which must stand in it once.
fn mended(body: TokenStream) -> String {
    let [slip, right] = [SLIP, MENDED].map(|line| spaced(line.parse().expect("a line of Rust")));
    let body = spaced(body);
    let places = body.matches(&slip).count();
    assert!(places == 1, "explosively_depressurize has `{SLIP}` in {places} places, and one is to be mended");
    body.replace(&slip, &right)
}

/// `explosively_depressurize` once more, mended, under another name; of any other function nothing.
fn once_more(name: &str, parameters: TokenStream, body: TokenStream) -> String {
    if name == "explosively_depressurize" { format!("pub fn depressurize_mended {parameters} {{ {} }}", mended(body)) } else { String::new() }
}

/// What stands before the body, and after it, with the answer in `answer`; and a function more beside it.
fn looks(name: &str) -> (&'static str, &'static str, &'static str) {
    match name {
        "explosively_depressurize" => ("if crate::watch::requested(1, initial_index) { return Ok(()); }", "", ""),
        "planet_equalize" => ("if crate::watch::requested(2, initial_index) { return Ok(()); }", "", ""),
        "flood_fill_zones" => (
            "let lent = found_turfs; let mut own = std::mem::take(lent); let found_turfs = &mut own;",
            "crate::watch::filled(match &answer { FloodFillResult::Complete(graph, moles) => Some((graph, *moles)), _ => None });
            crate::watch::found(own.iter().copied(), matches!(answer, FloodFillResult::Overtime));
            *lent = own;",
            "",
        ),
        "process_zone" => ("crate::watch::planning();", "crate::watch::planned(&answer);", ""),
        "finalize_eq_zone" => (
            "let Some(graph) = crate::watch::finishing(graph) else { return None; };",
            "crate::watch::finished(answer.as_ref().map_or(0, Vec::len));",
            "pub fn finish_turf(index: NodeIndex, arena: &TurfGases, graph: &DiGraphMap<NodeIndex, Cell<f32>>, pressures: &mut Vec<(f32, u32, u32)>) {
                finalize_eq(index, arena, graph, pressures)
            }",
        ),
        _ => ("", "", ""),
    }
}

#[proc_macro_attribute]
pub fn instrument(_words: TokenStream, item: TokenStream) -> TokenStream {
    let mut head: Vec<TokenTree> = item.into_iter().collect();
    let Some(TokenTree::Group(body)) = head.pop() else { panic!("a function ends in its body") };
    assert_eq!(body.delimiter(), Delimiter::Brace);
    let words: Vec<String> = head.iter().map(ToString::to_string).collect();
    let at = words.iter().position(|w| w == "fn").expect("a function");
    let result = words.iter().zip(&words[1..]).rposition(|(a, b)| a == "-" && b == ">").expect("an answer");
    let signature: TokenStream = head[at..].iter().cloned().collect();
    let answers: TokenStream = head[result + 2..].iter().cloned().collect();
    let (before, after, beside) = looks(&words[at + 1]);
    let attributes: TokenStream = head[..at].iter().cloned().collect();
    let more = once_more(&words[at + 1], head[at + 2..].iter().cloned().collect(), body.stream());
    format!("{attributes} pub {signature} {{ {before} let answer = (move || -> {answers} {body})(); {after} answer }} {beside} {more}")
        .parse()
        .expect("what was parsed before")
}
