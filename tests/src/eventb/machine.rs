//! A machine played: its variables are all FALSE at first, an event may be
//! taken where all its guards hold, and its actions then change the variables.

use super::text::{Action, EventText, Formula, Joint, Part};

/// A condition whose variables are told by their places in the machine.
enum Step {
    Is(usize, bool),
    Joint(Joint),
}

struct Event {
    guards: Vec<Vec<Step>>,
    actions: Vec<(usize, bool)>,
}

pub struct Machine {
    events: Vec<Event>,
    values: Vec<bool>,
}

impl Machine {
    /// A machine with these variables and events, or which variable is unknown.
    pub fn new(variables: &[String], events: &[EventText]) -> Result<Machine, String> {
        let events = events.iter().map(|event| event_in(variables, event)).collect::<Result<_, _>>()?;
        Ok(Machine { events, values: vec![false; variables.len()] })
    }

    /// All variables FALSE again.
    pub fn start(&mut self) {
        self.values.fill(false);
    }

    /// Whether all guards of the event hold.
    pub fn may_take(&self, event: usize) -> bool {
        self.events[event].guards.iter().all(|guard| holds(guard, &self.values))
    }

    /// What the actions of the event do.
    pub fn take(&mut self, event: usize) {
        for (variable, value) in &self.events[event].actions {
            self.values[*variable] = *value;
        }
    }

    /// The values of the variables in their order.
    pub fn values(&self) -> &[bool] {
        &self.values
    }
}

fn event_in(variables: &[String], event: &EventText) -> Result<Event, String> {
    let place = |name: &String| {
        let place = variables.iter().position(|variable| variable == name);
        place.ok_or_else(|| format!("{}: no variable is called {name}", event.name))
    };
    let step = |part: &Part| match part {
        Part::Is(variable, value) => Ok(Step::Is(place(variable)?, *value)),
        Part::Joint(joint) => Ok(Step::Joint(*joint)),
    };
    let guard = |Formula(parts): &Formula| parts.iter().map(step).collect::<Result<Vec<_>, String>>();
    let action = |Action { variable, value }: &Action| Ok((place(variable)?, *value));
    Ok(Event {
        guards: event.guards.iter().map(guard).collect::<Result<_, _>>()?,
        actions: event.actions.iter().map(action).collect::<Result<_, String>>()?,
    })
}

/// The sides of each joint are the two conditions before it.
fn holds(guard: &[Step], values: &[bool]) -> bool {
    let mut open = Vec::new();
    for step in guard {
        let value = match step {
            Step::Is(variable, value) => values[*variable] == *value,
            Step::Joint(joint) => {
                let (right, left) = (open.pop(), open.pop());
                let (left, right) = left.zip(right).expect("a joint has two sides");
                match joint {
                    Joint::Both => left && right,
                    Joint::Either => left || right,
                }
            }
        };
        open.push(value);
    }
    open.pop().expect("a guard is no empty list")
}
