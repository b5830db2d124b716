//! How the time of each call grows with one thing at a time.

use crate::input::{Input, Kinds};
use crate::race::{run, Call, Effort, Race, MACHINE_CALLS, TABLE_CALLS, TEXT_CALLS};
use reference::generate::{many_copies, pad_between, root, root_with_leaves};

/// Inputs that differ in one thing; the calls on texts take the texts, the one
/// that writes Event-B text takes the machines, those on tables the tables.
struct Series {
    title: &'static str,
    unit: &'static str,
    sizes: Vec<usize>,
    texts: Vec<Input>,
    machines: Vec<Input>,
    tables: Vec<Input>,
}

pub fn show(effort: Effort) {
    println!("\n2. Growth: nanoseconds for each unit of what grows, and exponents");
    println!(
        "
Exponent e: the time grows as the size to the power e; 1 is linear, 0 does not depend on it. The first is from the
smallest size to the largest, the second over the last two. Both are lower where a part of the time is fixed; the third
is without that part, from the last two increments of the time, and so the roughest; - where the time hardly grows.
The same input comes again and again, and the processor learns the small ones: what is linear may show a little over 1.
Best of {} rounds each. Buffers are not cleared.",
        effort.passes * effort.rounds
    );
    let all = [nodes(), nodes_and_bytes(), copies(), events(), bytes(), machine_events(), rows(), table_events()];
    let mut lines: Vec<Vec<Line>> = all.iter().map(lines_of).collect();
    run(lines.iter_mut().flatten().flat_map(|line| &mut line.races), effort);
    all.iter().zip(&lines).for_each(|(series, lines)| show_series(series, lines));
}

// ---------------------------------------------------------------------------
// What grows
// ---------------------------------------------------------------------------

const LEAVES: [usize; 5] = [16, 32, 64, 128, 255];

fn nodes() -> Series {
    let texts = LEAVES.map(|leaves| padded(&root_with_leaves(leaves), 4096));
    let title = "a root with leaves; 4,096 bytes; copies and events grow along";
    drawings(title, "nodes", texts.into(), |text| text.nodes.unwrap_or(0))
}

/// Only for the calls on texts: no table shows blanks.
fn nodes_and_bytes() -> Series {
    let texts = LEAVES.map(|leaves| Input::text("text", root_with_leaves(leaves)));
    let title = "the same without blanks, so that bytes grow along too";
    Series { tables: Vec::new(), ..drawings(title, "nodes", texts.into(), |text| text.nodes.unwrap_or(0)) }
}

fn copies() -> Series {
    let texts = [1, 2, 4, 8, 16].map(|size| padded(&many_copies(8).replace(":16", &format!(":{size}")), 2048));
    let title = "all(v:1) to all(v:16) over flows; 78 nodes, 2,048 bytes; events grow along";
    drawings(title, "copies", texts.into(), |text| text.copies.unwrap_or(0))
}

fn events() -> Series {
    let texts = [8, 4, 2, 1].map(|length| padded(&chains(240, length), 6144));
    let title = "chains of seven flows and a leaf, then shorter ones, then leaves; 241 nodes and copies, 6,144 bytes";
    drawings(title, "events", texts.into(), |text| text.events)
}

/// The same number of nodes, in chains of flows with a leaf at the end.
fn chains(nodes: usize, length: usize) -> String {
    let flow = |chain: usize, at: usize| format!("flow(f{chain}_{at},1)(");
    let chain = |chain: usize| {
        let open: String = (1..length).map(|at| flow(chain, at)).collect();
        let solid = usize::from(chain == 0);
        format!("{open}leaf(l{chain}){}({solid})", "(1))".repeat(length - 1))
    };
    root(&(0..nodes / length).map(chain).collect::<String>())
}

fn bytes() -> Series {
    let sizes = vec![1024, 2048, 4096, 8192, 16_384];
    let texts = sizes.iter().map(|&length| padded(&root_with_leaves(64), length)).collect();
    Series { title: "blanks between the tokens of 64 leaves", unit: "bytes", sizes, texts, ..empty() }
}

/// The last event's guards say of the `or` before it that no member is halfway.
fn machine_events() -> Series {
    let sizes = vec![4, 8, 16, 32];
    let machines = sizes.iter().map(|&events| padded(&flow_in_or(events), 512)).collect();
    let title = "a flow of leaves in an or, and a leaf after it; 512 bytes; nodes and copies grow along";
    Series { title, unit: "events", sizes, machines, ..empty() }
}

fn flow_in_or(events: usize) -> String {
    let leaf = |leaf: usize| format!("leaf(l{leaf})({})", usize::from(leaf == 0));
    let leaves: String = (0..events - 2).map(leaf).collect();
    root(&format!("or(flow(f,1)({leaves})leaf(m))(0)leaf(z)(1)"))
}

fn rows() -> Series {
    let sizes: Vec<usize> = (0..7).map(|doubled| 192 << doubled).collect();
    let tables = sizes.iter().map(|&rows| Input::made_table("made", 64, rows, Kinds::InTurn)).collect();
    Series { title: "made tables of 64 events", unit: "rows", sizes, tables, ..empty() }
}

fn table_events() -> Series {
    let sizes: Vec<usize> = (0..6).map(|doubled| 16 << doubled).collect();
    let tables = sizes.iter().map(|&events| Input::made_table("made", events, 1536, Kinds::InTurn)).collect();
    Series { title: "made tables of 1,536 rows", unit: "events", sizes, tables, ..empty() }
}

fn padded(text: &str, length: usize) -> Input {
    Input::text("text", pad_between(text.as_bytes(), length))
}

fn drawings(title: &'static str, unit: &'static str, texts: Vec<Input>, size: fn(&Input) -> usize) -> Series {
    let sizes = texts.iter().map(size).collect();
    let tables = texts.iter().map(Input::table_of).collect();
    Series { title, unit, sizes, texts, tables, ..empty() }
}

fn empty() -> Series {
    Series { title: "", unit: "", sizes: Vec::new(), texts: Vec::new(), machines: Vec::new(), tables: Vec::new() }
}

// ---------------------------------------------------------------------------
// Lines
// ---------------------------------------------------------------------------

/// One call on the inputs of a series.
struct Line<'s> {
    call: Call,
    races: Vec<Race<'s>>,
}

fn lines_of(series: &Series) -> Vec<Line<'_>> {
    let mut lines = Vec::new();
    let Series { texts, machines, tables, .. } = series;
    for (calls, inputs) in [(&TEXT_CALLS[..], texts), (&MACHINE_CALLS, machines), (&TABLE_CALLS, tables)] {
        let races = |call| inputs.iter().map(|input| Race::new(call, input, false)).collect();
        lines.extend(calls.iter().map(|&call| Line { call, races: races(call) }));
    }
    lines.retain(|line| !line.races.is_empty());
    lines
}

fn show_series(series: &Series, lines: &[Line]) {
    println!("\nWith {}: {}", series.unit, series.title);
    let sizes: String = series.sizes.iter().map(|size| format!("{size:>9}")).collect();
    println!("{:<20}{sizes}   exponents", format!("ns a unit, {}", series.unit));
    lines.iter().for_each(|line| show_line(line, &series.sizes));
}

fn show_line(line: &Line, sizes: &[usize]) {
    for (at, runner) in line.call.runners().iter().enumerate() {
        let point = |(&size, race): (&usize, &Race)| Point { size: size as f64, time: race.best[at] };
        let points: Vec<Point> = sizes.iter().zip(&line.races).map(point).collect();
        let title = if at == 0 { line.call.title() } else { "" };
        let times: String = points.iter().map(|point| format!("{:>9.2}", point.time / point.size)).collect();
        println!("{title:<10}{:<10}{times}   {}", runner.title, exponents(&points));
    }
}

#[derive(Clone, Copy)]
struct Point {
    size: f64,
    time: f64,
}

/// The slope between two points on logarithmic paper.
fn slope(from: Point, to: Point) -> f64 {
    (to.time / from.time).ln() / (to.size / from.size).ln()
}

fn exponents(points: &[Point]) -> String {
    let [.., before, next, last] = points else {
        unreachable!("a series has three points or more");
    };
    let added = |from: &Point, to: &Point| Point { size: to.size - from.size, time: to.time - from.time };
    let (earlier, later) = (added(before, next), added(next, last));
    let grows = earlier.time > 0.03 * next.time && later.time > 0.03 * last.time;
    let without_fixed = if grows { format!("{:>6.2}", slope(earlier, later)) } else { format!("{:>6}", "-") };
    format!("{:>6.2}{:>6.2}{without_fixed}", slope(points[0], *last), slope(*next, *last))
}
