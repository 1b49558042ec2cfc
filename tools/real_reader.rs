//! Asks serde_derive_internals what it tells of items: each line of standard input is a line of the table of containers
//! (crates/container_cases, src/reading.rs), and for each a line is printed, as tools/real_reader.py reads it.
//!
//! The line has the diagnostics, each behind the number of its first and of its last token, then the container as that
//! table shows it. A line `no item` tells that syn reads no item, and `unfit` that the table's renamers would tell another
//! conflict of names than serde's own rules do.

use proc_macro2::{Delimiter, Span, TokenStream, TokenTree};
use serde_derive_internals::ast::{Container, Data, Field, Style};
use serde_derive_internals::attr::{RenameAllRules, RenameRule, TagType};
use serde_derive_internals::name::{MultiName, Name};
use serde_derive_internals::{Ctxt, Derive};
use std::collections::BTreeSet;
use std::fmt::Write;
use std::io::BufRead;

/// A token with its columns; `held` where the trees of the port hold a place of it. A bracket has the number of the other one.
struct Token {
    start: usize,
    end: usize,
    held: bool,
    pair: Option<usize>,
}

const UNHELD: &[&str] = &["as", "const", "dyn", "fn", "for", "impl", "mut", "where"];

fn column(span: Span) -> (usize, usize) {
    (span.start().column, span.end().column)
}

fn number(stream: TokenStream, inside: bool, tokens: &mut Vec<Token>) {
    let mut attribute = false;
    for tree in stream {
        let (start, end) = column(tree.span());
        match tree {
            TokenTree::Group(group) => {
                let (first, last) = (column(group.span_open()), column(group.span_close()));
                let open = tokens.len();
                tokens.push(Token { start: first.0, end: first.1, held: inside, pair: None });
                number(group.stream(), attribute && group.delimiter() == Delimiter::Bracket, tokens);
                tokens[open].pair = Some(tokens.len());
                tokens.push(Token { start: last.0, end: last.1, held: inside, pair: Some(open) });
                attribute = false;
            }
            TokenTree::Punct(punct) => {
                attribute = punct.as_char() == '#';
                tokens.push(Token { start, end, held: punct.as_char() == '\'', pair: None });
            }
            TokenTree::Ident(name) => {
                let held = !UNHELD.contains(&name.to_string().as_str());
                tokens.push(Token { start, end, held, pair: None });
            }
            TokenTree::Literal(_) => tokens.push(Token { start, end, held: true, pair: None }),
        }
    }
}

/// Whether the text is told of something that the trees hold in parts: its marks and brackets are left out of its place.
fn is_of_parts(text: &str) -> bool {
    let whole = ["at least", "duplicate", "expected", "failed", "malformed", "unexpected", "unknown"];
    !whole.iter().any(|front| text.starts_with(front)) && !text.contains("can only be used on")
}

/// The numbers of the first and the last token that a text is told of.
fn place(span: Span, tokens: &[Token], text: &str) -> String {
    let parts = is_of_parts(text);
    let (start, end) = column(span);
    if start == end {
        // no token stands there
        return "0".to_owned();
    }
    let first = tokens.iter().position(|token| token.start == start);
    let last = tokens.iter().rposition(|token| token.end == end);
    let (Some(mut first), Some(mut last)) = (first, last) else {
        return "?".to_owned();
    };
    if first == last {
        // what is told of a bracket is told of its group
        let pair = tokens[first].pair.unwrap_or(first);
        (first, last) = (first.min(pair), last.max(pair));
    }
    while parts && first < last && !tokens[first].held {
        first += 1;
    }
    while parts && last > first && !tokens[last].held {
        last -= 1;
    }
    if first == last { format!("{}", first + 1) } else { format!("{}-{}", first + 1, last + 1) }
}

/// What the table's renamer makes of a name that serde's rule made.
struct Renamer<'a> {
    word: &'a str,
    mark: &'a str,
    /// serde's names that were replaced, and what stands for them
    replaced: &'a mut Vec<String>,
}

impl Renamer<'_> {
    fn named(&mut self, name: &Name, own: &str, rule: RenameRule, by_rule: fn(RenameRule, &str) -> String) -> String {
        if rule == RenameRule::None || name.value != by_rule(rule, own) {
            return name.value.clone();
        }
        let other = if self.word == "zed" { "z".to_owned() } else { format!("{}{own}", self.mark) };
        self.replaced.extend([name.value.clone(), other.clone()]);
        other
    }

    fn names(&mut self, out: &mut String, own: &str, names: &MultiName, aliases: &BTreeSet<Name>, rules: Option<RenameAllRules>,
             by_rule: fn(RenameRule, &str) -> String) {
        let none = RenameAllRules { serialize: RenameRule::None, deserialize: RenameRule::None };
        let rules = rules.unwrap_or(none);
        let plain = own.trim_start_matches("r#");
        let written = self.named(names.serialize_name(), plain, rules.serialize, by_rule);
        let read = self.named(names.deserialize_name(), plain, rules.deserialize, by_rule);
        if written != own || read != own {
            write!(out, "={written}/{read}").unwrap();
        }
        for alias in aliases {
            if alias.value != names.deserialize_name().value {
                write!(out, "+{alias}").unwrap();
            }
        }
    }
}

fn field(out: &mut String, one: &Field, rules: RenameAllRules, word: &str, replaced: &mut Vec<String>) {
    let own = match &one.member {
        syn::Member::Named(name) => name.to_string(),
        syn::Member::Unnamed(place) => place.index.to_string(),
    };
    write!(out, " {own}").unwrap();
    Renamer { word, mark: "f_", replaced }.names(out, &own, one.attrs.name(), one.attrs.aliases(), Some(rules), RenameRule::apply_to_field);
    if one.attrs.transparent() {
        out.push('*');
    }
}

fn style(one: Style) -> &'static str {
    match one {
        Style::Struct => " struct",
        Style::Tuple => " tuple",
        Style::Newtype => " newtype",
        Style::Unit => " unit",
    }
}

/// The container as the table shows it, and the names that rules made in it.
fn shown(container: &Container, word: &str) -> (String, Vec<String>) {
    let mut out = container.ident.to_string();
    let mut replaced = Vec::new();
    let rules = container.attrs.rename_all_rules();
    Renamer { word, mark: "", replaced: &mut replaced }
        .names(&mut out, &container.ident.to_string(), container.attrs.name(), &BTreeSet::new(), None, RenameRule::apply_to_field);
    let predicates = container.generics.where_clause.as_ref().map_or(0, |clause| clause.predicates.len());
    if !container.generics.params.is_empty() || predicates > 0 {
        write!(out, "<{} {predicates}>", container.generics.params.len()).unwrap();
    }
    let mut all = String::new();
    match &container.data {
        Data::Struct(kind, fields) => {
            for one in fields {
                field(&mut all, one, rules, word, &mut replaced);
            }
            out.push_str(style(*kind));
            out.push_str(&all);
        }
        Data::Enum(variants) => {
            out.push_str(" enum");
            match container.attrs.tag() {
                TagType::External => {}
                TagType::Internal { tag } => write!(out, " internal {tag}").unwrap(),
                TagType::Adjacent { tag, content } => write!(out, " adjacent {tag} {content}").unwrap(),
                TagType::None => out.push_str(" untagged"),
            }
            for variant in variants {
                let own = variant.ident.to_string();
                write!(out, "; {own}").unwrap();
                Renamer { word, mark: "v_", replaced: &mut replaced }
                    .names(&mut out, &own, variant.attrs.name(), variant.attrs.aliases(), Some(rules), RenameRule::apply_to_variant);
                out.push_str(style(variant.style));
                let inner = variant.attrs.rename_all_rules().or(container.attrs.rename_all_fields_rules());
                let mut fields = String::new();
                for one in &variant.fields {
                    field(&mut fields, one, inner, word, &mut replaced);
                }
                out.push_str(&fields);
                all.push_str(&fields);
            }
        }
    }
    write!(out, "; all{all}").unwrap();
    if container.data.has_getter() {
        out.push_str(" getter");
    }
    (out, replaced)
}

fn answer(line: &str) -> Option<String> {
    let (head, text) = line.split_once(" | ")?;
    let (word, renamer) = head.split_once(' ')?;
    let derive = match word {
        "ser" => Derive::Serialize,
        "de" => Derive::Deserialize,
        _ => return None,
    };
    let stream: TokenStream = text.parse().ok()?;
    let mut tokens = Vec::new();
    number(stream.clone(), false, &mut tokens);
    let item: syn::DeriveInput = syn::parse2(stream).ok()?;
    let cx = Ctxt::new();
    let private = proc_macro2::Ident::new("private", Span::call_site());
    let container = Container::from_ast(&cx, &item, derive, &private);
    let mut out = String::new();
    if let Err(errors) = cx.check() {
        for error in errors {
            let text = error.to_string();
            write!(out, "{}\u{1f}{text}\t", place(error.span(), &tokens, &text)).unwrap();
        }
    }
    let Some(container) = container else {
        return Some(out + "none");
    };
    let (shown, replaced) = shown(&container, renamer);
    if let TagType::Internal { tag } = container.attrs.tag() {
        if replaced.contains(tag) {
            return Some("unfit".to_owned());
        }
    }
    Some(out + &shown)
}

fn main() {
    for line in std::io::stdin().lock().lines() {
        println!("{}", answer(&line.unwrap()).unwrap_or("no item".to_owned()));
    }
}
