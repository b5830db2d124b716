//! Random drawings that keep all rules, as texts to be played: every
//! constructor inside every other, small ones and ones at the limits.

use crate::generate::{pad_between, Random};
use crate::remarks::with_remarks;
use crate::{read, Kind, NodeInfo, TEXT_LIMIT, WORD_LIMIT};

/// How large a drawing shall be.
#[derive(Clone, Copy, Debug, PartialEq)]
pub enum Size {
    /// At most this many events, and more than half of them.
    Small(usize),
    /// Some dozens of events.
    Middle,
    /// Down to depth 12.
    Deep,
    /// Filled up until 512 events, 768 copies or 256 nodes are reached.
    Full,
}

/// What a drawing without replicators shall be like, of which a machine is made.
#[derive(Clone, Copy, Debug, PartialEq)]
pub enum Machine {
    /// At most this many events, and more than half of them.
    UpTo(usize),
    /// Filled up until it has just this many events.
    Exactly(usize),
    /// At most this many events, and a node at depth 12.
    Deep(usize),
    /// One constructor in the other down to depth 12, mostly `or`, with just this
    /// many events and all names as long as they may be: a long way to say what is
    /// complete.
    Nested(usize),
}

/// How much room there is. Growth stops when one of them is reached; the last
/// nodes may still go over it.
struct Room {
    depth: usize,
    nodes: usize,
    copies: usize,
    events: usize,
    children: usize,
    members: usize,
    /// The largest size of a replicator; 0 if there shall be none.
    largest: usize,
    /// A leaf is put once in so many times where more would be possible.
    plain: usize,
}

fn room(size: Size, random: &mut Random) -> Room {
    let middle = Room {
        depth: 12,
        nodes: 60,
        copies: 160,
        events: random.within(15, 90),
        children: random.within(1, 4),
        members: 3,
        largest: 5,
        plain: random.within(2, 5),
    };
    match size {
        Size::Small(events) => {
            let children = random.within(2, 3);
            Room { nodes: 4 * events, copies: 5 * events, events, children, members: 2, largest: 2, ..middle }
        }
        Size::Middle => middle,
        Size::Deep => {
            let children = random.within(2, 3);
            Room { nodes: 120, copies: 400, events: 200, children, largest: 3, ..middle }
        }
        Size::Full => {
            let events = random.within(100, 300);
            Room { nodes: 120, copies: 450, events, largest: 16, ..middle }
        }
    }
}

const LIMITS: (usize, usize, usize) = (256, 768, 512);

/// A text that is accepted. It has blanks now and then, or remarks.
pub fn accepted_text(size: Size, random: &mut Random) -> Vec<u8> {
    loop {
        let text = drawing(size, random).into_bytes();
        if fits(&text, size) {
            return with_gaps(text, random);
        }
    }
}

fn fits(text: &[u8], size: Size) -> bool {
    match (read(text), size) {
        (Ok(summary), Size::Small(events)) => summary.events <= events && 2 * summary.events > events,
        (Ok(_), _) => true,
        (Err(_), _) => false,
    }
}

fn with_gaps(text: Vec<u8>, random: &mut Random) -> Vec<u8> {
    let most = match random.below(12) {
        0 => TEXT_LIMIT,
        1 | 2 => (2 * text.len()).min(TEXT_LIMIT),
        3 | 4 => return with_remarks(text, random),
        _ => return text,
    };
    let length = random.within(text.len(), most);
    pad_between(&text, length)
}

fn drawing(size: Size, random: &mut Random) -> String {
    let room = room(size, random);
    let long_names = random.once_in(8);
    let maker = Maker::new(random, room, size == Size::Deep, long_names);
    maker.drawing(|maker| {
        maker.children(2, &mut Vec::new());
        if size == Size::Full {
            maker.fill_up();
        }
    })
}

/// A text that is accepted and has no replicator. It has blanks now and then, or
/// remarks.
pub fn machine_text(machine: Machine, random: &mut Random) -> Vec<u8> {
    loop {
        let text = machine_drawing(machine, random).into_bytes();
        if fits_machine(&text, machine) {
            return with_gaps(text, random);
        }
    }
}

fn fits_machine(text: &[u8], machine: Machine) -> bool {
    let Ok(summary) = read(text) else { return false };
    match machine {
        Machine::UpTo(events) => summary.events <= events && 2 * summary.events > events,
        Machine::Exactly(events) | Machine::Nested(events) => summary.events == events,
        Machine::Deep(events) => summary.events <= events && summary.nodes.iter().any(|node| node.depth == 12),
    }
}

fn machine_drawing(machine: Machine, random: &mut Random) -> String {
    let long_names = matches!(machine, Machine::Nested(_)) || random.once_in(3);
    let room = machine_room(machine, random);
    let maker = Maker::new(random, room, matches!(machine, Machine::Deep(_)), long_names);
    maker.drawing(|maker| match machine {
        Machine::UpTo(_) | Machine::Deep(_) => maker.children(2, &mut Vec::new()),
        Machine::Exactly(events) => {
            maker.children(2, &mut Vec::new());
            maker.fill_to(events);
        }
        Machine::Nested(events) => maker.nested_children(2, events),
    })
}

/// Something is left for what is put at the end of the root, or further down.
fn machine_room(machine: Machine, random: &mut Random) -> Room {
    let (most, growth) = match machine {
        Machine::UpTo(events) => (events, events),
        Machine::Exactly(events) | Machine::Deep(events) | Machine::Nested(events) => (events, events * 2 / 3),
    };
    Room {
        depth: 12,
        nodes: 4 * most,
        copies: 4 * most,
        events: growth,
        children: random.within(2, 3),
        members: random.within(2, 3),
        largest: 0,
        plain: random.within(2, 5),
    }
}

/// A replicator around the node that is being made.
struct Outer {
    par: String,
    size: usize,
}

fn copies_within(around: &[Outer]) -> usize {
    around.iter().map(|outer| outer.size).product()
}

struct Maker<'r> {
    random: &'r mut Random,
    room: Room,
    /// One child of each flow goes down as far as it may.
    deep: bool,
    /// All names are as long as they may be.
    long_names: bool,
    text: String,
    nodes: usize,
    copies: usize,
    events: usize,
}

impl<'r> Maker<'r> {
    fn new(random: &'r mut Random, room: Room, deep: bool, long_names: bool) -> Maker<'r> {
        Maker { random, room, deep, long_names, text: String::new(), nodes: 0, copies: 0, events: 0 }
    }

    /// The whole drawing; `children` puts those of the root.
    fn drawing(mut self, children: impl FnOnce(&mut Self)) -> String {
        self.open_flow(&[]);
        children(&mut self);
        self.text.push(')');
        self.text
    }

    fn put(&mut self, text: &str) {
        self.text.push_str(text);
    }

    fn count(&mut self, around: &[Outer]) {
        self.nodes += 1;
        self.copies += copies_within(around);
    }

    fn has_room(&self) -> bool {
        self.nodes < self.room.nodes && self.copies < self.room.copies && self.events < self.room.events
    }

    /// A name that no other node has.
    fn name(&self, letter: char) -> String {
        let name = format!("{letter}{}", self.nodes);
        match self.long_names {
            true => format!("{name}{}", "_".repeat(WORD_LIMIT - name.len())),
            false => name,
        }
    }

    fn leaf(&mut self, around: &[Outer]) {
        self.count(around);
        self.events += copies_within(around);
        self.put(&format!("leaf({})", self.name('l')));
    }

    fn open_flow(&mut self, around: &[Outer]) {
        self.count(around);
        let pars: String = around.iter().map(|outer| format!(",{}", outer.par)).collect();
        self.put(&format!("flow({}{pars},1)(", self.name('f')));
    }

    fn flow(&mut self, depth: usize, around: &mut Vec<Outer>) {
        self.open_flow(around);
        self.children(depth + 1, around);
        self.put(")");
    }

    fn children(&mut self, depth: usize, around: &mut Vec<Outer>) {
        let count = self.random.within(1, self.room.children).max(self.random.within(1, self.room.children));
        let solid = self.random.below(count);
        let deepest = self.random.below(count);
        for at in 0..count {
            let down = self.deep && at == deepest;
            self.child(depth, around, at == solid, down);
            self.put(if at == solid { "(1)" } else { "(0)" });
        }
    }

    fn child(&mut self, depth: usize, around: &mut Vec<Outer>, solid: bool, down: bool) {
        // A solid child is mostly a leaf: the other constructors need the room.
        let plain = self.random.once_in(self.room.plain) || solid && !self.random.once_in(3);
        if plain && !down || depth >= self.room.depth || !self.has_room() {
            return self.leaf(around);
        }
        let kinds: &[&str] = match (solid, self.room.largest > 0) {
            (true, true) => &["flow", "xor", "xor", "one", "one"],
            (false, true) => &["flow", "and", "and", "or", "or", "xor", "all", "some", "one", "loop", "loop", "loop"],
            (true, false) => &["flow", "xor", "xor"],
            (false, false) => &["flow", "and", "or", "or", "xor", "loop", "loop"],
        };
        match *self.random.pick(kinds) {
            "flow" => self.flow(depth, around),
            "loop" => self.repeated(depth, around, down),
            group @ ("and" | "or" | "xor") => self.group(group, depth, around, down),
            replicator => self.replicator(replicator, depth, around, down),
        }
    }

    /// A leaf or a flow; tells whether it is a flow.
    fn member(&mut self, depth: usize, around: &mut Vec<Outer>, down: bool) -> bool {
        let plain = !down && self.random.once_in(self.room.plain);
        if plain || depth >= self.room.depth || !self.has_room() {
            self.leaf(around);
            return false;
        }
        self.flow(depth, around);
        true
    }

    fn repeated(&mut self, depth: usize, around: &mut Vec<Outer>, down: bool) {
        self.count(around);
        self.put("loop(");
        if self.member(depth + 1, around, down) {
            self.events += copies_within(around);
        }
        self.put(")");
    }

    fn group(&mut self, keyword: &str, depth: usize, around: &mut Vec<Outer>, down: bool) {
        self.count(around);
        self.put(&format!("{keyword}("));
        let most = if self.random.once_in(12) { 3 * self.room.members } else { self.room.members };
        let count = self.random.within(2, most);
        let deepest = self.random.below(count);
        for at in 0..count {
            self.member(depth + 1, around, down && at == deepest);
        }
        self.put(")");
    }

    fn replicator(&mut self, keyword: &str, depth: usize, around: &mut Vec<Outer>, down: bool) {
        if around.len() == 3 {
            return self.group("xor", depth, around, down);
        }
        self.count(around);
        let par = format!("p{}", around.len());
        let size = self.random.within(1, self.room.largest);
        self.put(&format!("{keyword}({par}:{size})("));
        around.push(Outer { par, size });
        self.member(depth + 1, around, down);
        around.pop();
        self.put(")");
    }

    /// Children with just so many events: a constructor around a flow of the same
    /// sort, now and then a loop over a leaf, and a leaf. At the bottom there are
    /// leaves alone.
    fn nested_children(&mut self, depth: usize, events: usize) {
        if depth + 2 > self.room.depth || events < 4 {
            self.leaf(&[]);
            self.put("(1)");
            return (1..events).for_each(|_| self.fill_leaf());
        }
        let keyword = *self.random.pick(&["or", "or", "or", "or", "and", "xor", "loop"]);
        let beside = if keyword == "loop" { 1 } else { self.random.within(1, 2) };
        let loops = events > 8 && self.random.once_in(4);
        self.count(&[]);
        self.put(&format!("{keyword}("));
        self.open_flow(&[]);
        self.nested_children(depth + 2, events - beside - usize::from(loops) - 1);
        self.put(")");
        match keyword {
            "loop" => self.events += 1,
            _ => (0..beside).for_each(|_| self.leaf(&[])),
        }
        self.put(")(0)");
        if loops {
            self.count(&[]);
            self.put("loop(");
            self.leaf(&[]);
            self.put(")(0)");
        }
        self.leaf(&[]);
        self.put("(1)");
    }

    // -----------------------------------------------------------------------
    // Filling up to the limits
    // -----------------------------------------------------------------------

    /// Dashed children at the end of the root, until no leaf fits any more.
    fn fill_up(&mut self) {
        let choices = *self.random.pick(&[1, 3, 7]);
        while self.fits(1, 1, 1) {
            match self.random.below(choices) {
                0 | 1 if self.nearly_full() => self.fill_leaf(),
                0 => self.fill_replicator(),
                1 | 2 => self.fill_rounds(),
                _ => self.fill_group(),
            }
        }
    }

    fn fits(&self, nodes: usize, copies: usize, events: usize) -> bool {
        self.nodes + nodes <= LIMITS.0 && self.copies + copies <= LIMITS.1 && self.events + events <= LIMITS.2
    }

    /// Whether the largest filler might not fit.
    fn nearly_full(&self) -> bool {
        !self.fits(10, 90, 50)
    }

    fn fill_leaf(&mut self) {
        self.leaf(&[]);
        self.put("(0)");
    }

    /// A replicator over a leaf.
    fn fill_replicator(&mut self) {
        let size = self.random.within(1, 16);
        if !self.fits(2, 1 + size, size) {
            return self.fill_leaf();
        }
        self.count(&[]);
        let keyword = *self.random.pick(&["all", "some", "one"]);
        self.put(&format!("{keyword}(v:{size})("));
        self.leaf(&[Outer { par: "v".to_string(), size }]);
        self.put(")(0)");
    }

    /// A replicator over a flow that holds a loop over a flow.
    fn fill_rounds(&mut self) {
        let size = self.random.within(1, 16);
        if !self.fits(6, 1 + 5 * size, 3 * size) {
            return self.fill_leaf();
        }
        self.count(&[]);
        let keyword = *self.random.pick(&["all", "some", "one"]);
        self.put(&format!("{keyword}(v:{size})("));
        let around = [Outer { par: "v".to_string(), size }];
        self.open_flow(&around);
        self.count(&around);
        self.put("loop(");
        self.open_flow(&around);
        self.leaf(&around);
        self.put("(1)))(0)");
        self.events += size;
        self.leaf(&around);
        self.put("(1)))(0)");
    }

    /// The same without replicators, up to just so many events.
    fn fill_to(&mut self, events: usize) {
        let choices = *self.random.pick(&[1, 4]);
        while self.events < events {
            match (self.random.below(choices), events - self.events) {
                (0, _) | (_, 1) => self.fill_leaf(),
                (1, _) => self.fill_round(),
                (_, left) => self.fill_group_of(left.min(8)),
            }
        }
    }

    /// A loop over a flow of one leaf.
    fn fill_round(&mut self) {
        self.count(&[]);
        self.put("loop(");
        self.open_flow(&[]);
        self.leaf(&[]);
        self.put("(1)))(0)");
        self.events += 1;
    }

    /// Some leaves in a group.
    fn fill_group(&mut self) {
        let count = self.random.within(2, 8);
        match self.fits(1 + count, 1 + count, count) {
            true => self.fill_group_of(count),
            false => self.fill_leaf(),
        }
    }

    fn fill_group_of(&mut self, count: usize) {
        self.count(&[]);
        let keyword = *self.random.pick(&["and", "or", "xor"]);
        self.put(&format!("{keyword}("));
        (0..count).for_each(|_| self.leaf(&[]));
        self.put(")(0)");
    }
}

// ---------------------------------------------------------------------------
// What a drawing has inside its constructors
// ---------------------------------------------------------------------------

/// The constructors that others may stand in.
const OUTER: [&str; 7] = ["and", "or", "xor", "all", "some", "one", "loop"];

/// All that `nestings` can tell.
pub fn all_nestings() -> Vec<String> {
    let inner = |outer| OUTER.iter().chain(&["leaf loop"]).map(move |inner| format!("{inner} in {outer}"));
    OUTER.iter().flat_map(inner).collect()
}

/// For each constructor that is inside others, itself and the innermost of
/// those; a loop over a leaf is told from one over a flow.
pub fn nestings(nodes: &[NodeInfo]) -> Vec<String> {
    let mut nestings = Vec::new();
    let mut above: Vec<&NodeInfo> = Vec::new();
    for (at, node) in nodes.iter().enumerate() {
        above.truncate(node.depth - 1);
        let outer = above.iter().rev().find_map(|outer| title(outer.kind));
        let over_leaf = nodes.get(at + 1).is_some_and(|below| below.kind == Kind::Leaf);
        let inner = if node.kind == Kind::Loop && over_leaf { Some("leaf loop") } else { title(node.kind) };
        if let (Some(inner), Some(outer)) = (inner, outer) {
            nestings.push(format!("{inner} in {outer}"));
        }
        above.push(node);
    }
    nestings
}

fn title(kind: Kind) -> Option<&'static str> {
    match kind {
        Kind::Leaf | Kind::Flow => None,
        Kind::And => Some("and"),
        Kind::Or => Some("or"),
        Kind::Xor => Some("xor"),
        Kind::All(_) => Some("all"),
        Kind::Some(_) => Some("some"),
        Kind::One(_) => Some("one"),
        Kind::Loop => Some("loop"),
    }
}
