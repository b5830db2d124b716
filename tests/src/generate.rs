//! Texts to hold the two readers against each other: random ones, each made
//! from a single seed, and a fixed list of edge texts.

use crate::remarks::{
    damage_by_a_remark, hardly_a_token, padded_by_a_remark, remark_texts, spoil, spread_with_remarks,
};
use crate::TEXT_LIMIT;

/// The drawing called T in document 01.
pub const T: &str =
    "flow(trip,1)(leaf(take)(0)loop(leaf(fill))(0)xor(leaf(send)leaf(drop))(0)leaf(free)(1))";
/// The drawing called U in document 01.
pub const U: &str = "flow(t,1)(loop(flow(r,1)(leaf(a)(0)leaf(b)(1)))(0)leaf(c)(1))";

const KEYWORDS: &[&str] = &["flow", "leaf", "and", "or", "xor", "all", "some", "one", "loop"];

// ---------------------------------------------------------------------------
// Pseudo random numbers
// ---------------------------------------------------------------------------

/// xorshift64*, started from a scrambled seed so that neighbours differ.
pub struct Random(u64);

impl Random {
    pub fn new(seed: u64) -> Random {
        let mut state = seed.wrapping_add(0x9E37_79B9_7F4A_7C15);
        state = (state ^ (state >> 30)).wrapping_mul(0xBF58_476D_1CE4_E5B9);
        state = (state ^ (state >> 27)).wrapping_mul(0x94D0_49BB_1331_11EB);
        state ^= state >> 31;
        Random(if state == 0 { 1 } else { state })
    }

    pub fn number(&mut self) -> u64 {
        self.0 ^= self.0 >> 12;
        self.0 ^= self.0 << 25;
        self.0 ^= self.0 >> 27;
        self.0.wrapping_mul(0x2545_F491_4F6C_DD1D)
    }

    /// A number from 0 to `end` - 1.
    pub fn below(&mut self, end: usize) -> usize {
        ((self.number() >> 16) % end as u64) as usize
    }

    /// A number from `low` to `high`, both included.
    pub fn within(&mut self, low: usize, high: usize) -> usize {
        low + self.below(high - low + 1)
    }

    /// Yes once in `times`.
    pub fn once_in(&mut self, times: usize) -> bool {
        self.below(times) == 0
    }

    pub fn pick<'l, V>(&mut self, list: &'l [V]) -> &'l V {
        &list[self.below(list.len())]
    }
}

// ---------------------------------------------------------------------------
// One random text
// ---------------------------------------------------------------------------

/// How a random text is made.
#[derive(Clone, Copy, Debug, PartialEq, Eq)]
pub enum Sort {
    /// Grammatical; it may break the rules beyond grammar.
    Drawing,
    DamagedTokens,
    DamagedBytes,
    TokenSoup,
    Remarks,
    Bytes,
}

/// The text of a seed; the same seed gives the same text.
pub fn random_text(seed: u64) -> Vec<u8> {
    let random = &mut Random::new(seed);
    let sort = random_sort(random);
    text_of(sort, random)
}

pub fn random_sort(random: &mut Random) -> Sort {
    match random.below(100) {
        0..=54 => Sort::Drawing,
        55..=69 => Sort::DamagedTokens,
        70..=84 => Sort::DamagedBytes,
        85..=92 => Sort::TokenSoup,
        93 => Sort::Remarks,
        _ => Sort::Bytes,
    }
}

pub fn text_of(sort: Sort, random: &mut Random) -> Vec<u8> {
    match sort {
        Sort::Drawing => spread(&drawing(random), random),
        Sort::DamagedTokens => damage_tokens(random),
        Sort::DamagedBytes => damage_bytes(random),
        Sort::TokenSoup => token_soup(random),
        Sort::Remarks => hardly_a_token(random),
        Sort::Bytes => random_bytes(random),
    }
}

/// The tokens of a grammatical drawing.
pub type Tokens = Vec<String>;

/// Some tokens of a drawing removed, doubled, swapped, replaced or cut off.
fn damage_tokens(random: &mut Random) -> Vec<u8> {
    let mut tokens = drawing(random);
    for _ in 0..random.within(1, 2) {
        damage_one_token(&mut tokens, random);
    }
    spread(&tokens, random)
}

fn damage_one_token(tokens: &mut Tokens, random: &mut Random) {
    if tokens.is_empty() {
        return;
    }
    let at = random.below(tokens.len());
    match random.below(8) {
        0 => drop(tokens.remove(at)),
        1 => tokens.insert(at, tokens[at].clone()),
        2 => {
            let other = random.below(tokens.len());
            tokens.swap(at, other);
        }
        3 => {
            let next = (at + 1) % tokens.len();
            tokens.swap(at, next);
        }
        4 => tokens[at] = soup_token(random),
        5 => tokens.insert(at, soup_token(random)),
        6 => tokens.truncate(at),
        _ => {
            tokens.truncate(at);
            tokens.extend((0..random.within(1, 8)).map(|_| soup_token(random)));
        }
    }
}

/// One token of a text without foreign bytes damaged.
pub fn damaged_by_a_token(text: &[u8], random: &mut Random) -> Vec<u8> {
    let mut tokens = tokens_of(text);
    damage_one_token(&mut tokens, random);
    spread(&tokens, random)
}

pub(crate) fn tokens_of(text: &[u8]) -> Tokens {
    crate::cut(text).iter().map(|token| token.word.to_string()).collect()
}

/// Some bytes of a drawing's text changed, removed, inserted or cut off.
fn damage_bytes(random: &mut Random) -> Vec<u8> {
    let tokens = drawing(random);
    let mut text = spread(&tokens, random);
    for _ in 0..random.within(1, 3) {
        damage_one_byte(&mut text, random);
    }
    text
}

fn damage_one_byte(text: &mut Vec<u8>, random: &mut Random) {
    if text.is_empty() {
        return;
    }
    if random.once_in(8) {
        return damage_by_a_remark(text, random);
    }
    let at = random.below(text.len());
    match random.below(6) {
        0 => text[at] = near_byte(random),
        1 => drop(text.remove(at)),
        2 => text.insert(at, near_byte(random)),
        3 => text.truncate(at),
        4 => text[at] ^= 1 << random.below(8),
        _ => {
            let other = random.below(text.len());
            text.swap(at, other);
        }
    }
}

/// One to three bytes changed, removed or doubled, now and then a remark put in.
pub fn damaged(mut text: Vec<u8>, random: &mut Random) -> Vec<u8> {
    for _ in 0..random.within(1, 3) {
        let at = random.below(text.len());
        match random.below(4) {
            _ if random.once_in(8) => damage_by_a_remark(&mut text, random),
            0 => text[at] = *random.pick(b"(),:01lf \n!"),
            1 => text.truncate(at + 1),
            2 => text.insert(at, text[at]),
            _ if text.len() > 1 => drop(text.remove(at)),
            _ => {}
        }
    }
    text
}

/// Mostly a byte that is not foreign, sometimes one at the edge of a class,
/// sometimes any.
fn near_byte(random: &mut Random) -> u8 {
    match random.below(8) {
        0 => random.number() as u8,
        1 => *random.pick(b"\t\r\x0b\x0c\x00\x7f\x80\xff/;@[`{^-.*'!&\x1f\x09\x0b+<"),
        2..=4 => *random.pick(b"(),: \n"),
        _ => *random.pick(b"01269aAzZ_flowe"),
    }
}

/// Tokens in no order, often after the start of a flow.
fn token_soup(random: &mut Random) -> Vec<u8> {
    let mut tokens = Tokens::new();
    if random.once_in(2) {
        tokens.extend(["flow", "(", "a", ",", "1", ")", "("].map(String::from));
    }
    let length = random.within(0, 30);
    tokens.extend((0..length).map(|_| soup_token(random)));
    spread(&tokens, random)
}

fn soup_token(random: &mut Random) -> String {
    let words = [
        "0", "1", "2", "9", "10", "15", "16", "17", "00", "01", "016", "20", "160", "_", "_x",
        "9a", "a", "b", "v", "x1", "Flow", "LEAF", "flows", "lea", "alls", "loop_", "One", "x_",
    ];
    match random.below(8) {
        0..=2 => random.pick(&["(", ")", ",", ":"]).to_string(),
        3..=4 => random.pick(KEYWORDS).to_string(),
        5 => random_word(random),
        _ => random.pick(&words).to_string(),
    }
}

/// A word of 1 to 25 bytes, of any kind.
fn random_word(random: &mut Random) -> String {
    let length = *random.pick(&[1, 1, 2, 3, 5, 8, 23, 24, 24, 25]);
    word_of(length, random)
}

fn word_of(length: usize, random: &mut Random) -> String {
    let bytes = b"abcdefghijklmnopqrstuvwxyzABCDEFGHIJKLMNOPQRSTUVWXYZ0123456789_";
    (0..length).map(|_| *random.pick(bytes) as char).collect()
}

/// Bytes in no order: any, or only ones of the language.
pub fn random_bytes(random: &mut Random) -> Vec<u8> {
    let length = match random.below(40) {
        0 => random.within(16_380, 16_390),
        1..=10 => random.within(0, 400),
        _ => random.within(0, 40),
    };
    let any = random.once_in(2);
    let of_the_language = match random.once_in(4) {
        true => &b"flow(a,1)(leaf(b)(1))leaf loop:xor\n_09AZaz(),:#\n\n\n"[..],
        false => b"flow(a,1)(leaf(b)(1))leaf loop:xor\n_09AZaz(),:",
    };
    let byte = |random: &mut Random| match any {
        true => random.number() as u8,
        false => *random.pick(of_the_language),
    };
    (0..length).map(|_| byte(random)).collect()
}

// ---------------------------------------------------------------------------
// Blanks between tokens
// ---------------------------------------------------------------------------

/// Joins tokens with blanks and, in one text of five, remarks before, between and
/// after them; some of these have a foreign byte.
fn spread(tokens: &Tokens, random: &mut Random) -> Vec<u8> {
    let mut text = match random.once_in(5) {
        true => spread_with_remarks(tokens, random),
        false => spread_with_blanks(tokens, random),
    };
    if random.once_in(5) {
        spoil(&mut text, random);
    }
    if random.once_in(60) {
        return pad_somewhere(text, random);
    }
    text
}

fn spread_with_blanks(tokens: &Tokens, random: &mut Random) -> Vec<u8> {
    let (one_in, longest) = *random.pick(&[(0, 0), (0, 0), (8, 1), (3, 2), (1, 1), (2, 6)]);
    let mut text = Vec::new();
    for token in tokens {
        if one_in > 0 && random.once_in(one_in) {
            add_blanks(random.within(1, longest), &mut text, random);
        }
        text.extend_from_slice(token.as_bytes());
    }
    if one_in > 0 && random.once_in(2) {
        add_blanks(random.within(1, longest), &mut text, random);
    }
    text
}

fn add_blanks(count: usize, text: &mut Vec<u8>, random: &mut Random) {
    text.extend((0..count).map(|_| *random.pick(b" \n")));
}

/// Blanks or a remark at the front or the end up to a length around the limit.
fn pad_somewhere(text: Vec<u8>, random: &mut Random) -> Vec<u8> {
    let length = *random.pick(&[16_383, 16_384, 16_384, 16_385, 16_386, 20_000]);
    match random.below(6) {
        0 | 1 => pad_front(&text, length),
        2 | 3 => pad_end(&text, length),
        remark => padded_by_a_remark(&text, length, remark == 4),
    }
}

pub(crate) fn pad_front(text: &[u8], length: usize) -> Vec<u8> {
    let mut padded = vec![b' '; length.saturating_sub(text.len())];
    padded.extend_from_slice(text);
    padded
}

pub(crate) fn pad_end(text: &[u8], length: usize) -> Vec<u8> {
    let mut padded = text.to_vec();
    padded.resize(length.max(text.len()), b'\n');
    padded
}

/// Shares blanks out evenly between the tokens of a text, up to a length.
pub fn pad_between(text: &[u8], length: usize) -> Vec<u8> {
    let tokens = crate::cut(text);
    let written: usize = tokens.iter().map(|token| token.word.len()).sum();
    let blanks = length - written;
    let mut padded = Vec::with_capacity(length);
    for (at, token) in tokens.iter().enumerate() {
        padded.extend_from_slice(token.word.as_bytes());
        let so_far = blanks * (at + 1) / tokens.len();
        let before = blanks * at / tokens.len();
        padded.extend((before..so_far).map(|blank| if blank % 7 == 0 { b'\n' } else { b' ' }));
    }
    padded
}

// ---------------------------------------------------------------------------
// Random drawings
// ---------------------------------------------------------------------------

/// Which rules a drawing may break, and how large it may get.
struct Plan {
    depth: usize,
    nodes: usize,
    /// No more constructors and flows once there are this many copies.
    copies: usize,
    /// Leaves are put at the end of the root up to this number of nodes,
    /// copies or events, whichever is reached first.
    fill: usize,
    fill_copies: usize,
    fill_events: usize,
    /// Put replicators there instead of leaves until close to that.
    fill_with_replicators: bool,
    /// The most children of the root and of the other flows.
    children: usize,
    inner_children: usize,
    largest_size: usize,
    /// Go down as far as allowed instead of closing early.
    deep: bool,
    long_names: bool,
    twice: bool,
    long_word: bool,
    pars: bool,
    solid: bool,
    weak: bool,
}

fn plan(random: &mut Random) -> Plan {
    let children = *random.pick(&[1, 2, 3, 3, 4, 6]);
    let mut plan = Plan {
        depth: *random.pick(&[2, 3, 4, 5, 6, 8, 10, 12, 12, 12]),
        nodes: *random.pick(&[2, 4, 8, 8, 12, 12, 20, 30, 60, 120]),
        copies: 1000,
        fill: 0,
        fill_copies: usize::MAX,
        fill_events: usize::MAX,
        fill_with_replicators: false,
        children,
        inner_children: children,
        largest_size: *random.pick(&[1, 2, 2, 3, 4, 16]),
        deep: random.once_in(4),
        long_names: random.once_in(6),
        twice: false,
        long_word: false,
        pars: false,
        solid: false,
        weak: false,
    };
    if random.once_in(3) {
        add_slips(&mut plan, random);
    }
    if random.once_in(25) {
        plan.fill = random.within(250, 258);
        plan.largest_size = *random.pick(&[1, 2, 16]);
    }
    if random.once_in(25) {
        plan.depth = random.within(12, 14);
        plan.deep = true;
    }
    if random.once_in(25) {
        aim_at_copies(&mut plan, random);
    }
    plan
}

/// A drawing of just under, at or just over the most copies or events.
fn aim_at_copies(plan: &mut Plan, random: &mut Random) {
    plan.depth = 4;
    plan.nodes = 250;
    plan.children = random.within(1, 4);
    plan.inner_children = random.within(1, 2);
    plan.deep = random.once_in(2);
    plan.largest_size = 16;
    plan.copies = 700;
    plan.fill = 256;
    plan.fill_with_replicators = true;
    plan.fill_copies = random.within(767, 770);
    plan.fill_events = random.within(511, 514);
}

fn add_slips(plan: &mut Plan, random: &mut Random) {
    for _ in 0..random.within(1, 2) {
        match random.below(9) {
            0 | 1 => plan.twice = true,
            2 => plan.long_word = true,
            3 | 4 => plan.pars = true,
            5 | 6 => plan.solid = true,
            _ => plan.weak = true,
        }
    }
}

/// The tokens of a random grammatical drawing.
pub fn drawing(random: &mut Random) -> Tokens {
    let plan = plan(random);
    let (tokens, names) = (Vec::new(), Vec::new());
    let mut maker = Maker { random, plan, tokens, names, nodes: 0, copies: 0, events: 0 };
    maker.flow(1, &mut Vec::new());
    maker.tokens
}

struct Maker<'r> {
    random: &'r mut Random,
    plan: Plan,
    tokens: Tokens,
    names: Vec<String>,
    nodes: usize,
    copies: usize,
    events: usize,
}

/// A replicator around the node that is being made.
struct Outer {
    par: String,
    size: usize,
}

fn copies_within(around: &[Outer]) -> usize {
    around.iter().map(|outer| outer.size).product()
}

impl Maker<'_> {
    fn put(&mut self, tokens: &[&str]) {
        self.tokens.extend(tokens.iter().map(|token| token.to_string()));
    }

    /// Whether a node here at this depth may have others below it.
    fn has_room(&self, depth: usize) -> bool {
        depth < self.plan.depth
            && self.nodes < self.plan.nodes
            && self.copies < self.plan.copies
    }

    fn count(&mut self, around: &[Outer]) {
        self.nodes += 1;
        self.copies += copies_within(around);
    }

    fn leaf(&mut self, around: &[Outer]) {
        self.count(around);
        self.events += copies_within(around);
        let name = self.new_name();
        self.put(&["leaf", "(", &name, ")"]);
    }

    fn flow(&mut self, depth: usize, around: &mut Vec<Outer>) {
        self.count(around);
        let name = self.new_name();
        self.put(&["flow", "(", &name]);
        for par in self.listed_pars(around) {
            self.put(&[",", &par]);
        }
        let sw = if self.plan.weak && self.random.once_in(3) { "0" } else { "1" };
        self.put(&[",", sw, ")", "("]);
        self.children(depth + 1, around);
        self.put(&[")"]);
    }

    fn children(&mut self, depth: usize, around: &mut Vec<Outer>) {
        let most = if depth == 2 { self.plan.children } else { self.plan.inner_children };
        let count = self.random.within(1, most);
        let solid = self.random.below(count);
        for at in 0..count {
            let spoilt = self.plan.solid && self.random.once_in(3);
            self.child(depth, around, at == solid && !spoilt);
            let marked = (at == solid) != (spoilt && self.random.once_in(2));
            self.put(&["(", if marked { "1" } else { "0" }, ")"]);
        }
        if depth == 2 {
            self.fill_up();
        }
    }

    /// Dashed leaves, or first replicators and then leaves, at the end of the
    /// root.
    fn fill_up(&mut self) {
        while self.is_to_be_filled() {
            match self.plan.fill_with_replicators && !self.is_nearly_filled() {
                true => self.replicator("all", 2, &mut Vec::new()),
                false => self.leaf(&[]),
            }
            self.put(&["(", "0", ")"]);
        }
    }

    fn is_to_be_filled(&self) -> bool {
        self.nodes < self.plan.fill
            && self.copies < self.plan.fill_copies
            && self.events < self.plan.fill_events
    }

    /// Whether another replicator over a small flow might be too much.
    fn is_nearly_filled(&self) -> bool {
        self.nodes + 60 > self.plan.fill
            || self.copies + 50 > self.plan.fill_copies
            || self.events + 35 > self.plan.fill_events
    }

    fn child(&mut self, depth: usize, around: &mut Vec<Outer>, solid: bool) {
        let plain = !self.plan.deep && self.random.once_in(3);
        if plain || !self.has_room(depth) {
            return self.leaf(around);
        }
        let kinds: &[&str] = match solid {
            true => &["leaf", "flow", "xor", "one"],
            false => &["flow", "and", "or", "xor", "all", "some", "one", "loop"],
        };
        match *self.random.pick(kinds) {
            "leaf" => self.leaf(around),
            "flow" => self.flow(depth, around),
            "loop" => self.repeated(depth, around),
            group @ ("and" | "or" | "xor") => self.group(group, depth, around),
            replicator => self.replicator(replicator, depth, around),
        }
    }

    /// A leaf or a flow; tells whether it is a flow.
    fn member(&mut self, depth: usize, around: &mut Vec<Outer>) -> bool {
        let leaf = !self.random.once_in(if self.plan.deep { 1 } else { 2 });
        if leaf || !self.has_room(depth) {
            self.leaf(around);
            return false;
        }
        self.flow(depth, around);
        true
    }

    fn repeated(&mut self, depth: usize, around: &mut Vec<Outer>) {
        self.count(around);
        self.put(&["loop", "("]);
        if self.member(depth + 1, around) {
            self.events += copies_within(around);
        }
        self.put(&[")"]);
    }

    fn group(&mut self, keyword: &str, depth: usize, around: &mut Vec<Outer>) {
        self.count(around);
        self.put(&[keyword, "("]);
        for _ in 0..self.random.within(2, 3) {
            self.member(depth + 1, around);
        }
        self.put(&[")"]);
    }

    fn replicator(&mut self, keyword: &str, depth: usize, around: &mut Vec<Outer>) {
        if around.len() >= 3 && !self.plan.pars {
            return self.leaf(around);
        }
        self.count(around);
        let par = self.new_par(around);
        let size = self.random.within(1, self.plan.largest_size);
        self.put(&[keyword, "(", &par, ":", &size.to_string(), ")", "("]);
        around.push(Outer { par, size });
        self.member(depth + 1, around);
        around.pop();
        self.put(&[")"]);
    }

    /// The pars a flow lists: those around it, now and then others.
    fn listed_pars(&mut self, around: &[Outer]) -> Vec<String> {
        let mut pars: Vec<String> = around.iter().map(|outer| outer.par.clone()).collect();
        if !self.plan.pars || !self.random.once_in(4) {
            return pars;
        }
        match self.random.below(4) {
            0 => drop(pars.pop()),
            1 => pars.reverse(),
            2 => pars.push(self.some_par()),
            _ => {
                let other = self.some_par();
                if let Some(first) = pars.first_mut() {
                    *first = other;
                }
            }
        }
        pars
    }

    /// A par that no replicator around has, now and then one that does.
    fn new_par(&mut self, around: &[Outer]) -> String {
        let repeat = self.plan.pars && self.random.once_in(4);
        loop {
            let par = self.some_par();
            if repeat || around.iter().all(|outer| outer.par != par) {
                return par;
            }
        }
    }

    /// A par: from a short list, or a leaf's or flow's name, which may agree.
    fn some_par(&mut self) -> String {
        match self.random.below(6) {
            0 if !self.names.is_empty() => self.random.pick(&self.names).clone(),
            1 => self.wild_name(),
            _ => self.random.pick(&["v", "w", "V", "x", "p1", "p2"]).to_string(),
        }
    }

    /// A name that no leaf or flow has yet, now and then one that has.
    fn new_name(&mut self) -> String {
        if self.plan.long_word && self.random.once_in(6) {
            return format!("L{}", word_of(24, self.random));
        }
        if self.plan.twice && self.random.once_in(4) && !self.names.is_empty() {
            return self.random.pick(&self.names).clone();
        }
        loop {
            let name = self.wild_name();
            if !self.names.contains(&name) {
                self.names.push(name.clone());
                return name;
            }
        }
    }

    /// A name of one of many looks; all but one sort are easily alike.
    fn wild_name(&mut self) -> String {
        let shape = if self.plan.long_names { self.random.below(2) } else { self.random.below(8) };
        let name = match shape {
            0 => format!("same_but_for_the_last_{}", word_of(2, self.random)),
            1 => format!("Q{}", word_of(self.random.within(20, 23), self.random)),
            2 => format!("{}{}", self.random.pick(KEYWORDS), word_of(1, self.random)),
            3 => format!("{}{}", self.random.pick(&["Flow", "LEAF", "X"]), self.nodes),
            4 => format!("n{}", self.random.below(1000)),
            _ => word_of(self.random.within(1, 3), self.random),
        };
        match crate::is_name(&name) {
            true => name,
            false => format!("a{name}"),
        }
    }
}

// ---------------------------------------------------------------------------
// Edge texts
// ---------------------------------------------------------------------------

/// All fixed texts, the same at each call.
pub fn edge_texts() -> Vec<Vec<u8>> {
    let mut texts = Vec::new();
    texts.extend(length_texts());
    texts.extend(byte_texts());
    texts.extend(word_texts());
    texts.extend(damaged_drawings());
    texts.extend(size_texts());
    texts.extend(value_texts());
    texts.extend(big_texts());
    texts.extend(grammar_or_big_texts());
    texts.extend(name_texts());
    texts.extend(parameter_texts());
    texts.extend(solid_and_weak_texts());
    texts.extend(copies_texts());
    texts.extend(order_texts());
    texts.extend(remark_texts());
    texts
}

/// A root that holds this text.
pub fn root(children: &str) -> String {
    format!("flow(root,1)({children})")
}

/// Dashed leaves with names of their own.
fn leaves(count: usize) -> String {
    (0..count).map(|at| format!("leaf(n{at})(0)")).collect()
}

/// A root with so many leaves, the first one solid.
pub fn root_with_leaves(count: usize) -> String {
    root(&format!("leaf(solid)(1){}", leaves(count - 1)))
}

/// So many flows, each in the one before, and a leaf in the last.
pub fn nested_flows(count: usize) -> String {
    let open: String = (0..count).map(|at| format!("flow(f{at},1)(")).collect();
    format!("{open}leaf(a)(1){}", ")(1)".repeat(count - 1)) + ")"
}

/// Flows with loops between: so many loops, at every second depth.
fn nested_loops(count: usize) -> String {
    let open: String = (0..count).map(|at| format!("loop(flow(f{at},1)(")).collect();
    let close: String = (0..count).map(|at| format!("))(0)leaf(c{at})(1)")).collect();
    root(&format!("{open}leaf(a)(1){close}"))
}

/// 31 children all(v:16)(leaf(..)) and so many leaves, one of them solid.
pub fn many_events(leaf_count: usize) -> String {
    let copied: String = (0..31).map(|at| format!("all(v:16)(leaf(c{at}))(0)")).collect();
    root(&format!("{copied}leaf(solid)(1){}", leaves(leaf_count - 1)))
}

/// 23 children all(v:16) over a flow of one leaf, and so many leaves.
pub fn many_copies(leaf_count: usize) -> String {
    let copied: String =
        (0..23).map(|at| format!("all(v:16)(flow(f{at},v,1)(leaf(c{at})(1)))(0)")).collect();
    root(&format!("{copied}leaf(solid)(1){}", leaves(leaf_count - 1)))
}

fn owned(texts: &[&str]) -> Vec<Vec<u8>> {
    texts.iter().map(|text| text.as_bytes().to_vec()).collect()
}

/// Empty and blank texts, and lengths around the limit.
fn length_texts() -> Vec<Vec<u8>> {
    let mut texts = owned(&["", " ", "\n", " \n \n", T, U]);
    for length in [16_383, 16_384, 16_385, 20_000, 70_000] {
        texts.push(vec![b' '; length]);
        texts.push(vec![b'a'; length]);
        texts.push(vec![0; length]);
        texts.push(vec![b'('; length]);
        for drawing in [T, U, &many_events(16), &many_copies(8), &root_with_leaves(255)] {
            texts.push(pad_front(drawing.as_bytes(), length));
            texts.push(pad_end(drawing.as_bytes(), length));
            texts.push(pad_between(drawing.as_bytes(), length));
        }
    }
    texts.push(longest_drawing());
    texts
}

/// A drawing of exactly the longest length with hardly a blank: names and
/// pars as long as they may be.
pub fn longest_drawing() -> Vec<u8> {
    let name = |at: usize| format!("a_name_of_24_bytes__{at:04}");
    let pars = ["p", "q", "r"].map(|par| par.repeat(24));
    let [p, q, r] = &pars;
    let body: String = (2..222)
        .map(|at| match at % 2 {
            0 => format!("flow({},{p},{q},{r},1)(", name(at)),
            _ => format!("leaf({})(1))(0)", name(at)),
        })
        .collect();
    let text = root(&format!(
        "leaf(z)(1)all({p}:1)(flow(y,{p},1)(leaf(x)(1)all({q}:1)(flow(w,{p},{q},1)(leaf(v)(1)\
         some({r}:1)(flow({},{p},{q},{r},1)({body}leaf(u)(1)))(0)))(0)))(0)",
        name(1)
    ));
    pad_between(text.as_bytes(), TEXT_LIMIT.max(text.len()))
}

/// Each byte value alone, within a drawing and after one; two foreign ones.
fn byte_texts() -> Vec<Vec<u8>> {
    let mut texts = Vec::new();
    for byte in 0..=255u8 {
        texts.push(vec![byte]);
        texts.push(with_byte(T, 7, byte));
        texts.push(with_byte(T, 13, byte));
        texts.push(with_byte(T, T.len(), byte));
        texts.push(with_byte(T, 0, byte));
    }
    let mut two = with_byte(T, T.len(), b'!');
    two.insert(20, b'?');
    texts.push(two);
    texts
}

fn with_byte(text: &str, at: usize, byte: u8) -> Vec<u8> {
    let mut bytes = text.as_bytes().to_vec();
    bytes.insert(at, byte);
    bytes
}

/// Words around the longest length, at several places, and two long ones.
fn word_texts() -> Vec<Vec<u8>> {
    let mut texts = Vec::new();
    for length in [1, 23, 24, 25, 26, 48, 49, 300] {
        for first in ["a", "0", "_", "Z"] {
            let word = format!("{first}{}", "9".repeat(length - 1));
            texts.push(word.clone().into_bytes());
            texts.push(format!(" \n{word} {word}").into_bytes());
            texts.push(root(&format!("leaf({word})(1)")).into_bytes());
            texts.push(root(&format!("leaf(a)({word})")).into_bytes());
            texts.push(root(&format!("all({word}:2)(leaf(b))(0)leaf(a)(1)")).into_bytes());
            texts.push(format!("{T}{word}").into_bytes());
            texts.push(format!("{T} {word} !").into_bytes());
        }
    }
    texts
}

/// T, U and a drawing with every constructor: each start of them, and each
/// token of them removed, doubled, swapped with the next, or replaced.
fn damaged_drawings() -> Vec<Vec<u8>> {
    let every = every_constructor();
    let mut texts = Vec::new();
    for drawing in [T, U, &every] {
        texts.extend((0..drawing.len()).map(|end| drawing.as_bytes()[..end].to_vec()));
        texts.extend((0..drawing.len()).map(|end| format!("{} \n", &drawing[..end]).into_bytes()));
        let tokens = tokens_of(drawing.as_bytes());
        for at in 0..tokens.len() {
            texts.extend(each_damage(&tokens, at));
        }
        texts.push(format!("{drawing}{drawing}").into_bytes());
        texts.push(format!("{drawing})").into_bytes());
        texts.push(format!("{drawing} leaf(after)(0)").into_bytes());
    }
    texts
}

/// A drawing in which each constructor stands over leaves and over flows.
pub fn every_constructor() -> String {
    root(
        "and(leaf(a)flow(b,1)(leaf(c)(1)))(0)or(leaf(d)leaf(e)leaf(f))(0)\
         xor(flow(g,1)(xor(leaf(h)leaf(i))(1))leaf(j))(0)\
         all(v:2)(flow(k,v,1)(one(w:3)(leaf(l))(1)some(x:1)(flow(m,v,x,1)(leaf(n)(1)))(0)))(0)\
         some(v:10)(leaf(o))(0)one(v:16)(leaf(p))(1)\
         loop(leaf(q))(0)loop(flow(r,1)(leaf(s)(1)))(0)flow(t,1)(flow(u,1)(leaf(y)(1))(1))(0)",
    )
}

fn each_damage(tokens: &Tokens, at: usize) -> Vec<Vec<u8>> {
    let others = [
        "(", ")", ",", ":", "0", "1", "2", "16", "17", "flow", "leaf", "xor", "all", "loop", "name",
        "_",
    ];
    let mut damaged = vec![tokens.clone(); 3];
    damaged[0].remove(at);
    damaged[1].insert(at, tokens[at].clone());
    damaged[2].swap(at, (at + 1) % tokens.len());
    for other in others {
        let mut replaced = tokens.clone();
        replaced[at] = other.to_string();
        damaged.push(replaced);
    }
    damaged.iter().map(|tokens| tokens.join(" ").into_bytes()).collect()
}

/// Words in the place of a size.
fn size_texts() -> Vec<Vec<u8>> {
    let mut words: Vec<String> = (0..=20).map(|size| size.to_string()).collect();
    words.extend(["00", "01", "001", "016", "1a", "a", "_1", "1_", "160", "26", "99"].map(String::from));
    let mut texts = Vec::new();
    for word in words {
        for keyword in ["all", "some", "one"] {
            texts.push(root(&format!("{keyword}(v:{word})(leaf(a))(0)leaf(b)(1)")).into_bytes());
        }
    }
    texts
}

/// Words in the place of sw, ref, a name and a par.
fn value_texts() -> Vec<Vec<u8>> {
    let mut words = vec![
        "0", "1", "2", "00", "01", "10", "11", "a", "_", "_x", "9a", "x9", "x_", "17", "O", "l",
        "Flow", "FLOW", "flow1", "lea", "leafs", "o", "o_r", "Loop",
    ];
    words.extend(KEYWORDS);
    let mut texts = Vec::new();
    for word in words {
        texts.push(format!("flow(r,{word})(leaf(a)(1))").into_bytes());
        texts.push(format!("flow(r,{word},1)(leaf(a)(1))").into_bytes());
        texts.push(format!("flow({word},1)(leaf(b)(1))").into_bytes());
        texts.push(format!("flow({word})(leaf(b)(1))").into_bytes());
        texts.push(format!("flow(r,1)(leaf({word})(1))").into_bytes());
        texts.push(format!("flow(r,1)(leaf(b)({word}))").into_bytes());
        texts.push(format!("flow(r,1)({word}(b)(1))").into_bytes());
        texts.push(format!("flow(r,1)(leaf(b)(1){word}(c)(0))").into_bytes());
        texts.push(format!("{word}(r,1)(leaf(b)(1))").into_bytes());
        texts.push(format!("flow(r,1)(loop({word}(b))(0)leaf(c)(1))").into_bytes());
        texts.push(format!("flow(r,1)(and({word}(b)leaf(d))(0)leaf(c)(1))").into_bytes());
        texts.push(format!("flow(r,1)(all({word}:2)(leaf(b))(0)leaf(c)(1))").into_bytes());
    }
    texts
}

/// Node 257 and depth 13, with one less and one more.
fn big_texts() -> Vec<Vec<u8>> {
    let mut texts: Vec<Vec<u8>> = Vec::new();
    texts.extend((253..=260).map(|count| root_with_leaves(count).into_bytes()));
    texts.extend((9..=15).map(|count| nested_flows(count).into_bytes()));
    texts.extend((4..=7).map(|count| nested_loops(count).into_bytes()));
    for last in ["loop(leaf(b))", "xor(leaf(b)leaf(d))", "all(v:2)(leaf(b))", "leaf(b)"] {
        for count in 252..=256 {
            let text = root(&format!("leaf(solid)(1){}{last}(0)", leaves(count - 2)));
            texts.push(text.into_bytes());
        }
        for count in 9..=13 {
            let inner = format!("leaf(a)(0){last}(1)");
            texts.push(nested_flows(count).replace("leaf(a)(1)", &inner).into_bytes());
        }
    }
    texts
}

/// 5 and 6 near one another.
fn grammar_or_big_texts() -> Vec<Vec<u8>> {
    let full = leaves(254);
    let deep: String = (0..11).map(|at| format!("flow(f{at},1)(")).collect();
    let mut texts = Vec::new();
    for end in [
        "", " ", "leaf", "leaf(", "leaf(n)(0))", "leaf leaf", "flow", "and", "xor(", "loop", "all(", "one",
        "name", "17", "(", ")", "))", ",", ":",
    ] {
        // Node 256 is a loop or an xor: what follows would be node 257.
        texts.push(format!("flow(root,1)({full}loop({end}").into_bytes());
        texts.push(format!("flow(root,1)({full}xor({end}").into_bytes());
        texts.push(format!("flow(root,1)({full}{end}").into_bytes());
        texts.push(format!("flow(root,1)({full}leaf(last)(1){end}").into_bytes());
        // What follows would be at depth 12, or 13 within a constructor.
        texts.push(format!("{deep}{end}").into_bytes());
        texts.push(format!("{deep}loop({end}").into_bytes());
        texts.push(format!("{deep}or({end}").into_bytes());
        texts.push(format!("{deep}some(v:1)({end}").into_bytes());
        texts.push(format!("{deep}flow(g,1)({end}").into_bytes());
        texts.push(format!("{deep}leaf(g)(1){end}").into_bytes());
    }
    // Off grammar before and after the node that is too much.
    texts.push(format!("flow(root,1)({full}leaf(a)(1)leaf(b)(2)").into_bytes());
    texts.push(format!("flow(root,1)({full}leaf(a)(2)leaf(b)(1)").into_bytes());
    texts.push(format!("{}{}", root_with_leaves(256), nested_flows(13)).into_bytes());
    texts
}

/// Names that are alike, nearly alike, or alike only with a par.
fn name_texts() -> Vec<Vec<u8>> {
    owned(&[
        "flow(a,1)(leaf(a)(1))",
        "flow(a,1)(leaf(A)(1))",
        "flow(a,1)(leaf(b)(1)leaf(c)(0)leaf(b)(0)leaf(c)(0))",
        "flow(a,1)(flow(b,1)(leaf(c)(1))(1)flow(b,1)(leaf(d)(1))(0))",
        "flow(a,1)(flow(b,1)(leaf(b)(1))(1))",
        "flow(a,1)(flow(b,1)(leaf(c)(1))(1)flow(d,1)(leaf(c)(1))(0))",
        "flow(a,1)(all(a:2)(leaf(b))(0)leaf(c)(1))",
        "flow(a,1)(all(b:2)(leaf(b))(0)leaf(c)(1))",
        "flow(a,1)(all(b:2)(flow(b,b,1)(leaf(c)(1)))(0)leaf(d)(1))",
        "flow(a,1)(all(v:2)(leaf(b))(0)all(v:2)(leaf(c))(0)leaf(d)(1))",
        "flow(a,1)(leaf(ab)(1)leaf(a_b)(0)leaf(abc)(0)leaf(b)(0))",
        "flow(a,1)(xor(leaf(b)leaf(b))(1))",
        "flow(a,1)(loop(leaf(b))(0)leaf(b)(1))",
        "flow(aaaaaaaaaaaaaaaaaaaaaaaa,1)(leaf(aaaaaaaaaaaaaaaaaaaaaaab)(1))",
        "flow(aaaaaaaaaaaaaaaaaaaaaaaa,1)(leaf(aaaaaaaaaaaaaaaaaaaaaaaa)(1))",
        "flow(aaaaaaaaaaaaaaaaaaaaaaaa,1)(leaf(aaaaaaaaaaaaaaaaaaaaaaa)(1))",
        "flow(baaaaaaaaaaaaaaaaaaaaaaa,1)(leaf(aaaaaaaaaaaaaaaaaaaaaaaa)(1))",
    ])
}

/// Replicators in one another, flows with right and wrong pars.
fn parameter_texts() -> Vec<Vec<u8>> {
    let mut texts = owned(&[
        "flow(a,v,1)(leaf(b)(1))",
        "flow(a,1)(all(v:2)(flow(b,1)(leaf(c)(1)))(0)leaf(d)(1))",
        "flow(a,1)(all(v:2)(flow(b,w,1)(leaf(c)(1)))(0)leaf(d)(1))",
        "flow(a,1)(all(v:2)(flow(b,V,1)(leaf(c)(1)))(0)leaf(d)(1))",
        "flow(a,1)(all(v:2)(flow(b,v,v,1)(leaf(c)(1)))(0)leaf(d)(1))",
        "flow(a,1)(all(v:2)(flow(b,v,1)(flow(c,1)(leaf(d)(1))(1)))(0)leaf(e)(1))",
        "flow(a,1)(all(v:2)(flow(b,v,1)(leaf(c)(1)))(0)flow(d,v,1)(leaf(e)(1))(1))",
        "flow(a,1)(flow(b,v,1)(leaf(c)(1))(1)flow(d,w,1)(leaf(e)(1))(0))",
    ]);
    let pars = ["v", "w", "x"];
    for (outer, inner, third) in triples(&pars) {
        for listed in ["v,w", "w,v", "v", "w", "v,w,x", "x,v", "v,v"] {
            texts.push(nested_replicators(&[outer, inner], &["v", listed]).into_bytes());
        }
        let listed = [outer.to_string(), format!("{outer},{inner}"), format!("{outer},{inner},{third}")];
        let listed = [listed[0].as_str(), listed[1].as_str(), listed[2].as_str()];
        texts.push(nested_replicators(&[outer, inner, third], &listed).into_bytes());
        texts.push(nested_replicators(&[outer, inner, third, "y"], &listed).into_bytes());
        texts.push(nested_replicators(&[outer, inner, third, outer], &listed).into_bytes());
    }
    texts.push(nested_replicators(&["v", "w", "x", "y"], &["v", "v,w", "v,w,x", "v,w,x,y"]).into_bytes());
    texts.push(nested_replicators(&["v", "w", "x"], &["v", "v,w", "x,w,v"]).into_bytes());
    texts
}

fn triples<'p>(pars: &[&'p str]) -> Vec<(&'p str, &'p str, &'p str)> {
    let mut triples = Vec::new();
    for a in pars {
        for b in pars {
            triples.extend(pars.iter().map(|c| (*a, *b, *c)));
        }
    }
    triples
}

/// Replicators over flows, each in the flow before; the last replicator has
/// a leaf in it where no pars are listed for a flow.
fn nested_replicators(pars: &[&str], listed: &[&str]) -> String {
    let mut text = String::from("leaf(last)(1)");
    for at in (0..pars.len()).rev() {
        let body = match listed.get(at) {
            Some(listed) => format!("flow(f{at},{listed},1)({text})"),
            None => format!("leaf(l{at})"),
        };
        text = format!("leaf(s{at})(1)all({}:2)({body})(0)", pars[at]);
    }
    root(&text)
}

/// Each child kind solid, none or two solid, and sw 0 inside and outside.
fn solid_and_weak_texts() -> Vec<Vec<u8>> {
    let children = [
        "leaf(b)",
        "flow(b,1)(leaf(c)(1))",
        "and(leaf(b)leaf(c))",
        "or(leaf(b)leaf(c))",
        "xor(leaf(b)leaf(c))",
        "all(v:2)(leaf(b))",
        "some(v:2)(leaf(b))",
        "one(v:2)(leaf(b))",
        "loop(leaf(b))",
        "flow(b,1)(leaf(c)(0))",
        "flow(b,0)(leaf(c)(1))",
        "xor(flow(b,0)(leaf(c)(0))leaf(d))",
    ];
    let mut texts = Vec::new();
    for child in children {
        for sw in ["0", "1"] {
            texts.push(format!("flow(r,{sw})({child}(1))").into_bytes());
            texts.push(format!("flow(r,{sw})({child}(0))").into_bytes());
            texts.push(format!("flow(r,{sw})({child}(1)leaf(x)(1))").into_bytes());
            texts.push(format!("flow(r,{sw})({child}(1)leaf(x)(0))").into_bytes());
            texts.push(format!("flow(r,{sw})(leaf(x)(1){child}(0))").into_bytes());
            texts.push(format!("flow(r,1)(flow(q,{sw})({child}(0))(0)leaf(x)(1))").into_bytes());
            texts.push(format!("flow(r,1)(leaf(x)(1)flow(q,{sw})({child}(1))(0))").into_bytes());
        }
    }
    texts
}

/// Events and copies around their limits.
fn copies_texts() -> Vec<Vec<u8>> {
    let mut texts: Vec<Vec<u8>> = Vec::new();
    texts.extend((14..=19).map(|count| many_events(count).into_bytes()));
    texts.extend((6..=11).map(|count| many_copies(count).into_bytes()));
    // 16 * 16 * 2 leaf copies and the leaves beside them.
    for (size, inner) in [(1, 1), (15, 16), (16, 15), (16, 16)] {
        for more in [1, 200, 230] {
            let text = root(&format!(
                "leaf(solid)(1)all(v:{size})(flow(f,v,1)(leaf(g)(1)some(w:{inner})(leaf(h))(0)\
                 one(x:{inner})(leaf(i))(0)))(0){}",
                leaves(more)
            ));
            texts.push(text.into_bytes());
        }
    }
    // Resets count as events: loops over a flow in replicators.
    for size in 13..=16 {
        for loops in [6, 7, 8, 16] {
            let text: String = (0..loops)
                .map(|at| {
                    format!("all(v:{size})(flow(f{at},v,1)(loop(flow(g{at},v,1)(leaf(h{at})(1)))(0)leaf(i{at})(1)))(0)")
                })
                .collect();
            texts.push(root(&format!("leaf(solid)(1){text}")).into_bytes());
        }
    }
    texts
}

/// Texts that may be turned away for several reasons: the order decides.
fn order_texts() -> Vec<Vec<u8>> {
    let long = "a".repeat(25);
    let mut texts = owned(&[
        "flow(a,0)(all(v:2)(flow(a,1)(leaf(b)(0)))(0))",
        "flow(a,0)(all(v:2)(flow(b,1)(leaf(c)(0)))(0))",
        "flow(a,0)(all(v:2)(flow(b,v,1)(leaf(c)(0)))(0)leaf(d)(1))",
        "flow(a,0)(all(v:2)(flow(b,v,0)(leaf(c)(1)))(0)leaf(d)(1))",
        "flow(a,1)(all(v:2)(flow(b,v,0)(leaf(c)(1)))(0)leaf(d)(1))",
        "flow(a,x,0)(leaf(a)(0))",
        "flow(a,x,0)(leaf(b)(0))",
        "flow(a,0)(leaf(b)(0))",
    ]);
    texts.push(format!("flow(a,1){long}!").into_bytes());
    texts.push(format!("! {long}").into_bytes());
    texts.push(format!("){long}").into_bytes());
    texts.push(format!("{T}{long}").into_bytes());
    for (from, to) in [
        ("(solid)", "(n1)"),
        ("root,1", "root,v,1"),
        ("root,1", "root,0"),
        ("leaf(solid)(1)", "leaf(solid)(0)"),
        ("v:16", "v:17"),
    ] {
        texts.push(many_events(20).replacen(from, to, 1).into_bytes());
        texts.push(many_copies(20).replacen(from, to, 1).into_bytes());
    }
    texts.push(pad_end(b"!", 16_385));
    texts.push(pad_front(b"!", 16_385));
    texts.push(pad_front(b"!", 16_384));
    texts.push(pad_front(long.as_bytes(), 16_385));
    texts
}
