//! Event-B text of a drawing's events, written from documents 01 and 02 alone
//! (card 2): which drawings have one, what each event is called, and which
//! variables it sets and clears.
//!
//! How the guards are put is free, so that no guard is compared byte by byte.
//! A text is read back by a strict reader (`text`), played as a machine
//! (`machine`), and held against the meaning of the drawing (`compare`).

pub mod compare;
pub mod machine;
pub mod text;

use crate::meaning::{Copy, Diagram, Event};
use crate::{Kind, Refusal};
use text::{Action, EventText, MachineText};

/// The shortest buffer for the text of an event, which takes every one.
pub const EVENTB_LIMIT: usize = 65_536;
/// The most events of a drawing that has a machine.
pub const MACHINE_EVENTS: usize = 32;

// ---------------------------------------------------------------------------
// What is turned away
// ---------------------------------------------------------------------------

/// The drawing of a text that has a machine, or the refusal.
pub fn drawing_of(text: &[u8]) -> Result<Diagram, Refusal> {
    let diagram = Diagram::of(text)?;
    match has_replicator(&diagram.root) || diagram.events.len() > MACHINE_EVENTS {
        true => Err((16, 0)),
        false => Ok(diagram),
    }
}

/// Also one of size 1 is a replicator.
fn has_replicator(copy: &Copy) -> bool {
    matches!(copy.kind, Kind::All(_) | Kind::Some(_) | Kind::One(_)) || copy.below.iter().any(has_replicator)
}

/// The drawing and the event that is written to a buffer of this length, or the
/// refusal.
pub fn asked(drawing: &Result<Diagram, Refusal>, event: u64, length: usize) -> Result<(&Diagram, usize), Refusal> {
    if length < EVENTB_LIMIT {
        return Err((1, 0));
    }
    let diagram = drawing.as_ref().map_err(|refusal| *refusal)?;
    match event < diagram.events.len() as u64 {
        true => Ok((diagram, event as usize)),
        false => Err((14, 0)),
    }
}

// ---------------------------------------------------------------------------
// What is written
// ---------------------------------------------------------------------------

/// The variable of an event, which is also the event's name.
pub fn variable(event: &Event) -> String {
    let mark = if event.reset { "r_" } else { "v_" };
    format!("{mark}{}", event.name)
}

/// All variables in event order.
pub fn variables(diagram: &Diagram) -> Vec<String> {
    diagram.events.iter().map(variable).collect()
}

/// The event's own variable is set first; those it clears follow in event order.
pub fn actions(diagram: &Diagram, event: usize) -> Vec<Action> {
    let taken = &diagram.events[event];
    let set = Action { variable: variable(taken), value: true };
    let cleared = diagram.events[taken.cleared.clone()].iter();
    let cleared = cleared.map(|event| Action { variable: variable(event), value: false });
    std::iter::once(set).chain(cleared).collect()
}

/// What is wrong with an event's name and actions.
pub fn event_fault(diagram: &Diagram, event: usize, given: &EventText) -> Option<String> {
    let name = variable(&diagram.events[event]);
    if given.name != name {
        return Some(format!("event {event} is called {}, should be {name}", given.name));
    }
    let wanted = actions(diagram, event);
    let differ = given.actions != wanted;
    differ.then(|| format!("event {event} does {}, should do {}", shown(&given.actions), shown(&wanted)))
}

fn shown(actions: &[Action]) -> String {
    actions.iter().map(Action::to_string).collect::<Vec<_>>().join("; ")
}

/// What is wrong with a whole machine, its guards apart.
pub fn machine_fault(diagram: &Diagram, root: &str, given: &MachineText) -> Option<String> {
    if given.name != root {
        return Some(format!("the machine is called {}, should be {root}", given.name));
    }
    if given.variables != variables(diagram) {
        return Some(format!("the variables are {:?}, should be {:?}", given.variables, variables(diagram)));
    }
    if given.events.len() != diagram.events.len() {
        return Some(format!("{} events, should be {}", given.events.len(), diagram.events.len()));
    }
    given.events.iter().enumerate().find_map(|(event, given)| event_fault(diagram, event, given))
}
