//! Steps 1 to 4 of the change: docs, attributes, `const` traits, `crate::`.

use crate::lex::{K, Tok, close, is, next_solid, text};

const DROPPED_ATTRIBUTES: [&str; 6] = ["stable", "unstable", "must_use", "doc", "cfg_attr", "deny"];

/// The tokens without what a plain crate cannot have, for one flavour.
pub fn strip(t: &[Tok], flavour: &str) -> Vec<Tok> {
    let mut out: Vec<Tok> = Vec::new();
    let mut i = 0;
    while i < t.len() {
        if let Some(end) = dropped(t, i) {
            i = end;
        } else if is(t, i, "impl") && is(t, next_solid(t, i + 1), "const") {
            out.push(t[i].clone());
            i = next_solid(t, i + 1) + 1;
        } else if is(t, i, "crate") && is(t, i + 1, ":") && is(t, i + 2, ":") {
            for s in ["crate", ":", ":", flavour, ":", ":"] {
                let k = if s == ":" { K::Punct } else { K::Word };
                out.push(Tok { k, s: s.into(), line: t[i].line });
            }
            i += 3;
        } else {
            out.push(t[i].clone());
            i += 1;
        }
    }
    out
}

/// Where to go on if what starts at `i` is dropped.
fn dropped(t: &[Tok], i: usize) -> Option<usize> {
    if t[i].k == K::Doc {
        return Some(i + 1);
    }
    if is(t, i, "#") {
        return attribute_end(t, i);
    }
    if is(t, i, "const") && is(t, next_solid(t, i + 1), "fn") {
        // `const fn name<.. [const] ..>`
        let open = (i..t.len()).find(|&j| is(t, j, "("))?;
        return text(&t[i..open]).contains("[const]").then(|| next_solid(t, i + 1));
    }
    if is(t, i, "[") && is(t, i + 1, "const") && is(t, i + 2, "]") {
        return Some(next_solid(t, i + 3));
    }
    None
}

/// The place behind the attribute at `i` if it is one of those dropped.
fn attribute_end(t: &[Tok], i: usize) -> Option<usize> {
    let inner = is(t, i + 1, "!");
    let open = i + 1 + usize::from(inner);
    if !is(t, open, "[") {
        return None;
    }
    let name = t[next_solid(t, open + 1)].s.as_str();
    let drop = inner || name.starts_with("rustc_") || DROPPED_ATTRIBUTES.contains(&name);
    drop.then(|| close(t, open) + 1)
}
