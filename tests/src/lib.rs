//! A reader and printer of diagrams, their listing and their meaning, a player of
//! guard tables and a reader and player of Event-B text, written from documents 01
//! and 02 alone.
//!
//! The text is cut into tokens, between which blanks and remarks stand, the
//! tokens are made into an owned tree by recursive descent, and the rules beyond
//! grammar are looked at on the finished tree, one after the other, in the order
//! of the table "Numbers for what is turned away".
//!
//! - `cargo test --lib`: the reference on the drawings of document 01, and its
//!   remarks, its grammar and the meaning of drawings checked a second time in
//!   another way; the comparison of Event-B text on a plain writer of it and on
//!   wrong ones; needs no archive.
//! - `ADL_ARCHIVE=1 cargo test --release --test fuzz -- --nocapture`: the
//!   proved library against the reference, on texts, runs, tables and Event-B
//!   machines. ADL_CASES and ADL_SEED say how many generated cases and from which
//!   seed; ADL_REPLAY plays a failing case again, see tests/fuzz/main.rs.
//! - `ADL_LISTING=/path/to/program cargo test --test program`: the listing
//!   program against the reference, with ADL_TRANSLATE, ADL_PLAY and ADL_EVENTB
//!   the others; with ADL_ARCHIVE=1 also docs/LANGUAGE.md against programs and
//!   library. A test whose archive or program is missing fails.
//! - `./bench` in the directory above: the proved library, Rust and plain C
//!   timed in one run.
//!
//! With ADL_ARCHIVE=1 the archives libharness.a and libfirmware.a are linked,
//! which `bash .ci/made harness firmware` makes in the directory above, in
//! ../target/staticlib.

pub mod drawings;
pub mod eventb;
pub mod generate;
pub mod kit;
pub mod listing;
pub mod meaning;
pub mod plain;
pub mod plain_eventb;
pub mod plain_listing;
pub mod player;
#[cfg(adl_archive)]
pub mod proved;
pub mod remarks;
pub mod table;
pub mod worked;

#[cfg(test)]
mod check_drawings;
#[cfg(test)]
mod check_eventb;
#[cfg(test)]
mod check_grammar;
#[cfg(test)]
mod check_listing;
#[cfg(test)]
mod check_meaning;
#[cfg(test)]
mod check_remarks;
#[cfg(test)]
mod check_table;

/// Number and place of a text that is turned away.
pub type Refusal = (u8, usize);

/// The longest text that is read, and the shortest buffer for printing.
pub const TEXT_LIMIT: usize = 16_384;
/// The longest word, and the shortest buffer for a name.
pub const WORD_LIMIT: usize = 24;
const NODE_LIMIT: usize = 256;
const DEPTH_LIMIT: usize = 12;
const REPLICATOR_LIMIT: usize = 3;
const COPY_LIMIT: usize = 768;
const EVENT_LIMIT: usize = 512;

/// What a node is; the replicators carry their size.
#[derive(Clone, Copy, Debug, PartialEq, Eq)]
pub enum Kind {
    Leaf,
    Flow,
    And,
    Or,
    Xor,
    Loop,
    All(usize),
    Some(usize),
    One(usize),
}

/// One node of an accepted text. The name is empty for a constructor.
#[derive(Clone, Debug, PartialEq, Eq)]
pub struct NodeInfo {
    pub kind: Kind,
    pub solid: bool,
    /// A flow's sw is 1; false for any other node.
    pub strong: bool,
    pub depth: usize,
    pub name: String,
    /// Where its keyword stands.
    pub place: usize,
    /// Where the name of a leaf or flow stands, or the par of a replicator.
    pub word_place: Option<usize>,
}

/// What is known of an accepted text; the nodes stand in text order.
#[derive(Clone, Debug, PartialEq, Eq)]
pub struct Summary {
    pub events: usize,
    pub copies: usize,
    pub nodes: Vec<NodeInfo>,
}

/// Reads a text: its counts and nodes, or the refusal.
pub fn read(text: &[u8]) -> Result<Summary, Refusal> {
    summarize(&accept(text)?)
}

/// Prints a text without its blanks and remarks, for a lent buffer of the given
/// length.
pub fn print(text: &[u8], buffer_len: usize) -> Result<Vec<u8>, Refusal> {
    if buffer_len < TEXT_LIMIT {
        return Err((1, 0));
    }
    let root = accept(text)?;
    summarize(&root)?;
    let mut out = String::new();
    write_node(&root, &mut out);
    Ok(out.into_bytes())
}

/// All checks but the last, 11, which needs the counts.
fn accept(text: &[u8]) -> Result<Node, Refusal> {
    check_length(text)?;
    check_bytes(text)?;
    let tokens = cut(text);
    check_words(&tokens)?;
    let root = build(&tokens, text.len())?;
    check_names(&root)?;
    check_parameters(&root)?;
    check_solid(&root)?;
    check_strong(&root)?;
    Ok(root)
}

// ---------------------------------------------------------------------------
// Bytes and tokens: 2, 3 and 4
// ---------------------------------------------------------------------------

fn check_length(text: &[u8]) -> Result<(), Refusal> {
    if text.len() > TEXT_LIMIT {
        return Err((2, TEXT_LIMIT));
    }
    Ok(())
}

/// Every byte is looked at, those of remarks too: what may stand in them is
/// wider than what may stand outside.
fn check_bytes(text: &[u8]) -> Result<(), Refusal> {
    let mut in_remark = false;
    for (place, &byte) in text.iter().enumerate() {
        in_remark = is_in_remark(in_remark, byte);
        let foreign = if in_remark { !(32..=126).contains(&byte) } else { is_foreign(byte) };
        if foreign {
            return Err((3, place));
        }
    }
    Ok(())
}

/// Whether a byte is in a remark, given whether the byte before it is. A # starts
/// one, byte 10 ends it and is not in it.
fn is_in_remark(before: bool, byte: u8) -> bool {
    byte != b'\n' && (before || byte == b'#')
}

fn is_word_byte(byte: u8) -> bool {
    byte.is_ascii_alphanumeric() || byte == b'_'
}

fn is_mark(byte: u8) -> bool {
    b"(),:".contains(&byte)
}

fn is_blank(byte: u8) -> bool {
    byte == b' ' || byte == b'\n'
}

/// Outside of remarks.
fn is_foreign(byte: u8) -> bool {
    !is_word_byte(byte) && !is_mark(byte) && !is_blank(byte)
}

/// A word or a single mark, and the place of its first byte.
#[derive(Clone, Copy, Debug)]
pub(crate) struct Token<'t> {
    pub(crate) place: usize,
    pub(crate) word: &'t str,
}

/// Cuts a text without foreign bytes into its tokens; remarks and blanks are
/// passed over.
pub(crate) fn cut(text: &[u8]) -> Vec<Token<'_>> {
    let text = std::str::from_utf8(text).expect("no byte is foreign");
    let mut tokens = Vec::new();
    let mut place = 0;
    while place < text.len() {
        let rest = &text.as_bytes()[place..];
        let length = token_length(rest);
        if length > 0 {
            tokens.push(Token { place, word: &text[place..place + length] });
        }
        place += length.max(remark_length(rest)).max(1);
    }
    tokens
}

/// How long the token at the start of these bytes is, 0 at a blank or a remark.
fn token_length(bytes: &[u8]) -> usize {
    if is_mark(bytes[0]) {
        return 1;
    }
    bytes.iter().take_while(|&&byte| is_word_byte(byte)).count()
}

/// How long the remark at the start of these bytes is, 0 if there is none: up to
/// the next byte 10, or the end.
fn remark_length(bytes: &[u8]) -> usize {
    if bytes[0] != b'#' {
        return 0;
    }
    bytes.iter().take_while(|&&byte| byte != b'\n').count()
}

fn check_words(tokens: &[Token]) -> Result<(), Refusal> {
    match tokens.iter().find(|token| token.word.len() > WORD_LIMIT) {
        Some(token) => Err((4, token.place)),
        None => Ok(()),
    }
}

// ---------------------------------------------------------------------------
// The tree
// ---------------------------------------------------------------------------

/// A name and the place where it stands.
#[derive(Debug)]
struct Name {
    place: usize,
    word: String,
}

/// A node: the place of its keyword, its depth, whether it is a solid child.
#[derive(Debug)]
struct Node {
    place: usize,
    depth: usize,
    solid: bool,
    shape: Shape,
}

#[derive(Debug)]
enum Shape {
    Leaf { name: Name },
    Flow { name: Name, pars: Vec<Name>, strong: bool, children: Vec<Node> },
    Loop { body: Box<Node> },
    Group { rule: Group, members: Vec<Node> },
    Replicator { rule: Replicator, par: Name, size: usize, body: Box<Node> },
}

#[derive(Clone, Copy, Debug, PartialEq)]
enum Group {
    And,
    Or,
    Xor,
}

#[derive(Clone, Copy, Debug, PartialEq)]
enum Replicator {
    All,
    Some,
    One,
}

impl Node {
    fn kind(&self) -> Kind {
        match &self.shape {
            Shape::Leaf { .. } => Kind::Leaf,
            Shape::Flow { .. } => Kind::Flow,
            Shape::Loop { .. } => Kind::Loop,
            Shape::Group { rule: Group::And, .. } => Kind::And,
            Shape::Group { rule: Group::Or, .. } => Kind::Or,
            Shape::Group { rule: Group::Xor, .. } => Kind::Xor,
            Shape::Replicator { rule: Replicator::All, size, .. } => Kind::All(*size),
            Shape::Replicator { rule: Replicator::Some, size, .. } => Kind::Some(*size),
            Shape::Replicator { rule: Replicator::One, size, .. } => Kind::One(*size),
        }
    }

    /// The name of a leaf or flow.
    fn name(&self) -> Option<&Name> {
        match &self.shape {
            Shape::Leaf { name } | Shape::Flow { name, .. } => Some(name),
            _ => None,
        }
    }

    /// The par of a replicator.
    fn par(&self) -> Option<&Name> {
        match &self.shape {
            Shape::Replicator { par, .. } => Some(par),
            _ => None,
        }
    }

    /// The nodes directly below, left to right.
    fn below(&self) -> Vec<&Node> {
        match &self.shape {
            Shape::Leaf { .. } => Vec::new(),
            Shape::Flow { children, .. } => children.iter().collect(),
            Shape::Group { members, .. } => members.iter().collect(),
            Shape::Loop { body } | Shape::Replicator { body, .. } => vec![body],
        }
    }
}

// ---------------------------------------------------------------------------
// From tokens to the tree: 5 and 6
// ---------------------------------------------------------------------------

const ROOT: &[&str] = &["flow"];
const MEMBER: &[&str] = &["leaf", "flow"];
const CHILD: &[&str] = &["leaf", "flow", "and", "or", "xor", "all", "some", "one", "loop"];

pub(crate) fn is_keyword(word: &str) -> bool {
    CHILD.contains(&word)
}

pub(crate) fn is_name(word: &str) -> bool {
    word.starts_with(|first: char| first.is_ascii_alphabetic()) && !is_keyword(word)
}

/// The value of sw or ref, which are written 0 or 1 and in no other way.
pub(crate) fn bit_value(word: &str) -> Option<bool> {
    match word {
        "0" => Some(false),
        "1" => Some(true),
        _ => None,
    }
}

/// The value of a size: 1 to 16 without leading zero.
pub(crate) fn size_value(word: &str) -> Option<usize> {
    (1..=16).find(|size| size.to_string() == word)
}

/// Builds the tree of a whole text of the given length.
fn build(tokens: &[Token], text_len: usize) -> Result<Node, Refusal> {
    let mut builder = Builder { tokens, text_len, next: 0, nodes: 0 };
    let root = builder.node(ROOT, 1)?;
    match builder.word() {
        Some(_) => Err(builder.off_grammar()),
        None => Ok(root),
    }
}

/// Goes over the tokens from left to right and never back. Each reader below
/// stops at the first token that cannot stand where it stands; as every
/// unfinished piece can be finished somehow, that is the first token with
/// which no grammatical text goes on.
struct Builder<'t> {
    tokens: &'t [Token<'t>],
    text_len: usize,
    next: usize,
    nodes: usize,
}

impl<'t> Builder<'t> {
    /// The next token's word, none at the end of the text.
    fn word(&self) -> Option<&'t str> {
        self.tokens.get(self.next).map(|token| token.word)
    }

    /// Where the next token stands, or the text ends.
    fn place(&self) -> usize {
        self.tokens.get(self.next).map_or(self.text_len, |token| token.place)
    }

    fn off_grammar(&self) -> Refusal {
        (5, self.place())
    }

    fn is_at(&self, mark: &str) -> bool {
        self.word() == Some(mark)
    }

    fn mark(&mut self, mark: &str) -> Result<(), Refusal> {
        if !self.is_at(mark) {
            return Err(self.off_grammar());
        }
        self.next += 1;
        Ok(())
    }

    fn name(&mut self) -> Result<Name, Refusal> {
        let place = self.place();
        match self.word() {
            Some(word) if is_name(word) => {
                self.next += 1;
                Ok(Name { place, word: word.to_string() })
            }
            _ => Err(self.off_grammar()),
        }
    }

    /// A word that stands for a value, such as sw, ref or a size.
    fn value<V>(&mut self, meaning: fn(&str) -> Option<V>) -> Result<V, Refusal> {
        match self.word().and_then(meaning) {
            Some(value) => {
                self.next += 1;
                Ok(value)
            }
            None => Err(self.off_grammar()),
        }
    }

    /// The keyword of a new node: first whether it may stand here (5), then
    /// whether there is room for one more node at this depth (6).
    fn keyword(&mut self, allowed: &[&str], depth: usize) -> Result<&'t str, Refusal> {
        let Some(word) = self.word().filter(|word| allowed.contains(word)) else {
            return Err(self.off_grammar());
        };
        self.nodes += 1;
        if self.nodes > NODE_LIMIT || depth > DEPTH_LIMIT {
            return Err((6, self.place()));
        }
        self.next += 1;
        Ok(word)
    }

    fn node(&mut self, allowed: &[&str], depth: usize) -> Result<Node, Refusal> {
        let place = self.place();
        let shape = match self.keyword(allowed, depth)? {
            "leaf" => self.leaf()?,
            "flow" => self.flow(depth)?,
            "loop" => self.repeated(depth)?,
            "and" => self.group(Group::And, depth)?,
            "or" => self.group(Group::Or, depth)?,
            "xor" => self.group(Group::Xor, depth)?,
            "all" => self.replicator(Replicator::All, depth)?,
            "some" => self.replicator(Replicator::Some, depth)?,
            _ => self.replicator(Replicator::One, depth)?,
        };
        Ok(Node { place, depth, solid: false, shape })
    }

    /// `(name)` after `leaf`.
    fn leaf(&mut self) -> Result<Shape, Refusal> {
        self.mark("(")?;
        let name = self.name()?;
        self.mark(")")?;
        Ok(Shape::Leaf { name })
    }

    /// `(name,par,..,sw)(child(ref)..)` after `flow`.
    fn flow(&mut self, depth: usize) -> Result<Shape, Refusal> {
        self.mark("(")?;
        let name = self.name()?;
        let (pars, strong) = self.pars_and_sw()?;
        self.mark(")")?;
        self.mark("(")?;
        let mut children = vec![self.child(depth + 1)?];
        while !self.is_at(")") {
            children.push(self.child(depth + 1)?);
        }
        self.mark(")")?;
        Ok(Shape::Flow { name, pars, strong, children })
    }

    /// `,par,..,sw`: names until sw is met, each after a comma.
    fn pars_and_sw(&mut self) -> Result<(Vec<Name>, bool), Refusal> {
        let mut pars = Vec::new();
        loop {
            self.mark(",")?;
            match self.value(bit_value) {
                Ok(strong) => return Ok((pars, strong)),
                Err(_) => pars.push(self.name()?),
            }
        }
    }

    /// `child(ref)`.
    fn child(&mut self, depth: usize) -> Result<Node, Refusal> {
        let mut child = self.node(CHILD, depth)?;
        self.mark("(")?;
        child.solid = self.value(bit_value)?;
        self.mark(")")?;
        Ok(child)
    }

    /// `(member)` after `loop`, and after the head of a replicator.
    fn body(&mut self, depth: usize) -> Result<Box<Node>, Refusal> {
        self.mark("(")?;
        let body = self.node(MEMBER, depth)?;
        self.mark(")")?;
        Ok(Box::new(body))
    }

    fn repeated(&mut self, depth: usize) -> Result<Shape, Refusal> {
        Ok(Shape::Loop { body: self.body(depth + 1)? })
    }

    /// `(member member ..)`, two or more, after `and`, `or`, `xor`.
    fn group(&mut self, rule: Group, depth: usize) -> Result<Shape, Refusal> {
        self.mark("(")?;
        let mut members = vec![self.node(MEMBER, depth + 1)?, self.node(MEMBER, depth + 1)?];
        while !self.is_at(")") {
            members.push(self.node(MEMBER, depth + 1)?);
        }
        self.mark(")")?;
        Ok(Shape::Group { rule, members })
    }

    /// `(par:size)(member)` after `all`, `some`, `one`.
    fn replicator(&mut self, rule: Replicator, depth: usize) -> Result<Shape, Refusal> {
        self.mark("(")?;
        let par = self.name()?;
        self.mark(":")?;
        let size = self.value(size_value)?;
        self.mark(")")?;
        let body = self.body(depth + 1)?;
        Ok(Shape::Replicator { rule, par, size, body })
    }
}

// ---------------------------------------------------------------------------
// The rules beyond grammar, on the tree: 7 to 11
// ---------------------------------------------------------------------------

/// A replicator around a node: its par and its size.
#[derive(Clone, Copy)]
struct Around<'n> {
    par: &'n str,
    size: usize,
}

/// A node with the replicators around it, outermost first.
struct Seen<'n> {
    node: &'n Node,
    around: Vec<Around<'n>>,
}

/// All nodes in text order, which is the order of their keywords.
fn in_text_order(root: &Node) -> Vec<Seen<'_>> {
    let mut seen = Vec::new();
    look_at(root, Vec::new(), &mut seen);
    seen
}

fn look_at<'n>(node: &'n Node, around: Vec<Around<'n>>, seen: &mut Vec<Seen<'n>>) {
    let mut around_below = around.clone();
    if let Shape::Replicator { par, size, .. } = &node.shape {
        around_below.push(Around { par: &par.word, size: *size });
    }
    seen.push(Seen { node, around });
    for below in node.below() {
        look_at(below, around_below.clone(), seen);
    }
}

/// 7: leaf and flow names all differ.
fn check_names(root: &Node) -> Result<(), Refusal> {
    let mut earlier: Vec<&str> = Vec::new();
    for name in in_text_order(root).iter().filter_map(|seen| seen.node.name()) {
        if earlier.contains(&name.word.as_str()) {
            return Err((7, name.place));
        }
        earlier.push(&name.word);
    }
    Ok(())
}

/// Refuses with this number at the first node that breaks a rule.
fn check_nodes(root: &Node, number: u8, breaks: fn(&Seen) -> bool) -> Result<(), Refusal> {
    match in_text_order(root).iter().find(|seen| breaks(seen)) {
        Some(seen) => Err((number, seen.node.place)),
        None => Ok(()),
    }
}

/// 8: the rules on parameters.
fn check_parameters(root: &Node) -> Result<(), Refusal> {
    check_nodes(root, 8, |seen| {
        seen.around.len() > REPLICATOR_LIMIT || repeats_a_par(seen) || lists_other_pars(seen)
    })
}

/// A replicator whose par is that of one around it.
fn repeats_a_par(seen: &Seen) -> bool {
    match &seen.node.shape {
        Shape::Replicator { par, .. } => seen.around.iter().any(|outer| outer.par == par.word),
        _ => false,
    }
}

/// A flow whose pars are not those of the replicators around it, in order.
fn lists_other_pars(seen: &Seen) -> bool {
    match &seen.node.shape {
        Shape::Flow { pars, .. } => {
            let listed = pars.iter().map(|par| par.word.as_str());
            let wanted = seen.around.iter().map(|outer| outer.par);
            !listed.eq(wanted)
        }
        _ => false,
    }
}

/// 9: a flow has exactly one solid child, which is a leaf, flow, xor or one.
fn check_solid(root: &Node) -> Result<(), Refusal> {
    check_nodes(root, 9, |seen| match &seen.node.shape {
        Shape::Flow { children, .. } => {
            let solid: Vec<&Node> = children.iter().filter(|child| child.solid).collect();
            solid.len() != 1 || !may_be_solid(solid[0].kind())
        }
        _ => false,
    })
}

fn may_be_solid(kind: Kind) -> bool {
    matches!(kind, Kind::Leaf | Kind::Flow | Kind::Xor | Kind::One(_))
}

/// 10: sw is 1.
fn check_strong(root: &Node) -> Result<(), Refusal> {
    check_nodes(root, 10, |seen| matches!(seen.node.shape, Shape::Flow { strong: false, .. }))
}

/// 11, and the counts of a text that passes.
fn summarize(root: &Node) -> Result<Summary, Refusal> {
    let seen = in_text_order(root);
    let copies = seen.iter().map(copies_of).sum();
    let events = seen.iter().filter(|seen| makes_an_event(seen.node)).map(copies_of).sum();
    if copies > COPY_LIMIT || events > EVENT_LIMIT {
        return Err((11, 0));
    }
    let nodes = seen.iter().map(|seen| info(seen.node)).collect();
    Ok(Summary { events, copies, nodes })
}

/// One copy for each choice of values of the replicators around the node.
fn copies_of(seen: &Seen) -> usize {
    seen.around.iter().map(|outer| outer.size).product()
}

/// Each copy of a leaf is an event; each copy of a loop over a flow has one,
/// its reset.
fn makes_an_event(node: &Node) -> bool {
    match &node.shape {
        Shape::Leaf { .. } => true,
        Shape::Loop { body } => body.kind() == Kind::Flow,
        _ => false,
    }
}

fn info(node: &Node) -> NodeInfo {
    NodeInfo {
        kind: node.kind(),
        solid: node.solid,
        strong: matches!(node.shape, Shape::Flow { strong: true, .. }),
        depth: node.depth,
        name: node.name().map_or(String::new(), |name| name.word.clone()),
        place: node.place,
        word_place: node.name().or(node.par()).map(|word| word.place),
    }
}

// ---------------------------------------------------------------------------
// Printing, from the tree
// ---------------------------------------------------------------------------

fn write_node(node: &Node, out: &mut String) {
    out.push_str(keyword_of(node.kind()));
    out.push_str(&head(&node.shape));
    if !matches!(node.shape, Shape::Leaf { .. }) {
        write_below(node, out);
    }
}

/// The first brackets of a leaf, flow or replicator.
fn head(shape: &Shape) -> String {
    match shape {
        Shape::Leaf { name } => format!("({})", name.word),
        Shape::Flow { name, pars, strong, .. } => {
            let pars: String = pars.iter().map(|par| format!(",{}", par.word)).collect();
            format!("({}{},{})", name.word, pars, bit_word(*strong))
        }
        Shape::Replicator { par, size, .. } => format!("({}:{})", par.word, size),
        Shape::Loop { .. } | Shape::Group { .. } => String::new(),
    }
}

/// The brackets that hold the nodes below; in a flow each has its ref.
fn write_below(node: &Node, out: &mut String) {
    out.push('(');
    for below in node.below() {
        write_node(below, out);
        if node.kind() == Kind::Flow {
            out.push_str(&format!("({})", bit_word(below.solid)));
        }
    }
    out.push(')');
}

fn bit_word(bit: bool) -> &'static str {
    if bit {
        "1"
    } else {
        "0"
    }
}

fn keyword_of(kind: Kind) -> &'static str {
    match kind {
        Kind::Leaf => "leaf",
        Kind::Flow => "flow",
        Kind::And => "and",
        Kind::Or => "or",
        Kind::Xor => "xor",
        Kind::Loop => "loop",
        Kind::All(_) => "all",
        Kind::Some(_) => "some",
        Kind::One(_) => "one",
    }
}
