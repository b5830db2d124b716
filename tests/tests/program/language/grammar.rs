//! The grammar of the page, read as it stands there, and asked whether it derives
//! a text. It knows nothing of the reference's reader.

use super::page::Block;
use std::collections::{BTreeMap, BTreeSet};
use std::iter::Peekable;
use std::vec::IntoIter;

/// What stands on the right of a rule.
#[derive(Debug)]
enum Form {
    Word(String),
    Range(char, char),
    Rule(String),
    Sequence(Vec<Form>),
    Choice(Vec<Form>),
    Repeated(Box<Form>),
}

pub struct Grammar {
    rules: BTreeMap<String, Form>,
    keywords: BTreeSet<String>,
}

// ---------------------------------------------------------------------------
// Reading the rules
// ---------------------------------------------------------------------------

impl Grammar {
    pub fn of(block: &Block) -> Grammar {
        let words = block.lines.iter().flat_map(|line| line.split_whitespace()).map(str::to_string);
        let mut words = words.collect::<Vec<_>>().into_iter().peekable();
        let mut rules = BTreeMap::new();
        while let Some(name) = words.next() {
            assert_eq!(words.next().as_deref(), Some("="), "after {name}");
            rules.insert(name, choice(&mut words));
            assert_eq!(words.next().as_deref(), Some(";"));
        }
        let mut keywords = BTreeSet::new();
        rules.values().for_each(|form| form.add_keywords(&mut keywords));
        Grammar { rules, keywords }
    }

    /// The words that the grammar names.
    pub fn keywords(&self) -> Vec<&str> {
        self.keywords.iter().map(String::as_str).collect()
    }
}

type Words = Peekable<IntoIter<String>>;

fn choice(words: &mut Words) -> Form {
    let mut forms = vec![sequence(words)];
    while words.next_if_eq("|").is_some() {
        forms.push(sequence(words));
    }
    Form::Choice(forms)
}

fn sequence(words: &mut Words) -> Form {
    let mut forms = Vec::new();
    while let Some(word) = words.next_if(|word| ![";", "|", ")", "}"].contains(&word.as_str())) {
        let form = match word.as_str() {
            "{" => Form::Repeated(Box::new(closed(words, "}"))),
            "(" => closed(words, ")"),
            ".." => range(forms.pop(), words.next()),
            quoted if quoted.starts_with('"') => Form::Word(quoted.trim_matches('"').to_string()),
            _ => Form::Rule(word),
        };
        forms.push(form);
    }
    Form::Sequence(forms)
}

fn closed(words: &mut Words, end: &str) -> Form {
    let form = choice(words);
    assert_eq!(words.next().as_deref(), Some(end));
    form
}

fn range(first: Option<Form>, last: Option<String>) -> Form {
    match (first, last) {
        (Some(Form::Word(first)), Some(last)) => Form::Range(one_sign(&first), one_sign(last.trim_matches('"'))),
        other => panic!("no range: {other:?}"),
    }
}

fn one_sign(word: &str) -> char {
    word.parse().unwrap_or_else(|_| panic!("{word} is not one sign"))
}

impl Form {
    fn add_keywords(&self, keywords: &mut BTreeSet<String>) {
        match self {
            Form::Word(word) if word.chars().all(|sign| sign.is_ascii_lowercase()) => {
                keywords.insert(word.clone());
            }
            Form::Sequence(forms) | Form::Choice(forms) => forms.iter().for_each(|form| form.add_keywords(keywords)),
            Form::Repeated(form) => form.add_keywords(keywords),
            Form::Word(_) | Form::Range(..) | Form::Rule(_) => {}
        }
    }
}

// ---------------------------------------------------------------------------
// Deriving
// ---------------------------------------------------------------------------

impl Grammar {
    /// Whether the grammar derives a text that has no foreign byte.
    pub fn derives(&self, text: &str) -> bool {
        let tokens = tokens(text);
        self.ends(&self.rules["text"], &tokens, 0).contains(&tokens.len())
    }

    /// Where a form may end that begins here.
    fn ends(&self, form: &Form, tokens: &[&str], at: usize) -> BTreeSet<usize> {
        let one = |fits: bool| if fits { BTreeSet::from([at + 1]) } else { BTreeSet::new() };
        let here = tokens.get(at);
        match form {
            Form::Word(word) => one(here == Some(&word.as_str())),
            Form::Range(first, last) => {
                one(here.and_then(|token| token.parse().ok()).is_some_and(|sign| (*first..=*last).contains(&sign)))
            }
            Form::Rule(rule) if rule == "name" => one(here.is_some_and(|token| self.is_name(token))),
            Form::Rule(rule) => self.ends(&self.rules[rule], tokens, at),
            Form::Sequence(forms) => forms.iter().fold(BTreeSet::from([at]), |starts, form| {
                starts.into_iter().flat_map(|start| self.ends(form, tokens, start)).collect()
            }),
            Form::Choice(forms) => forms.iter().flat_map(|form| self.ends(form, tokens, at)).collect(),
            Form::Repeated(form) => self.repeated_ends(form, tokens, at),
        }
    }

    fn repeated_ends(&self, form: &Form, tokens: &[&str], at: usize) -> BTreeSet<usize> {
        let mut ends = BTreeSet::from([at]);
        let mut new = vec![at];
        while let Some(start) = new.pop() {
            new.extend(self.ends(form, tokens, start).into_iter().filter(|end| ends.insert(*end)));
        }
        ends
    }

    /// A name is told sign by sign, and is no keyword.
    fn is_name(&self, token: &str) -> bool {
        let signs: Vec<&str> = token.split("").filter(|sign| !sign.is_empty()).collect();
        !self.keywords.contains(token) && self.ends(&self.rules["name"], &signs, 0).contains(&signs.len())
    }
}

/// Longest runs of letters, digits and underscores, and single signs; blanks and
/// remarks are left out.
fn tokens(text: &str) -> Vec<&str> {
    let mut tokens = Vec::new();
    let mut rest = after_blanks(text);
    while !rest.is_empty() {
        let word = rest.find(|sign: char| !sign.is_ascii_alphanumeric() && sign != '_').unwrap_or(rest.len());
        let (token, after) = rest.split_at(word.max(1));
        tokens.push(token);
        rest = after_blanks(after);
    }
    tokens
}

/// What is left after blanks, and after remarks, which take the rest of a line.
fn after_blanks(text: &str) -> &str {
    let mut rest = text.trim_start_matches([' ', '\n']);
    while rest.starts_with('#') {
        let line = rest.find('\n').unwrap_or(rest.len());
        rest = rest[line..].trim_start_matches([' ', '\n']);
    }
    rest
}
