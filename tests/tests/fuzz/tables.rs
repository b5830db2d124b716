//! The four C calls and the thin call on a table and a record, held against the
//! table player of the reference.

use crate::case::TableCase;
use crate::thin::update;
use reference::kit::Lent;
use reference::plain::calls::Calls;
use reference::table::{self, RECORD_BYTES};

pub fn difference(case: &TableCase, library: &Calls) -> Option<String> {
    let table = Lent::bytes_of(&case.damaged());
    check_difference(&table, library)
        .or_else(|| step_difference(&table, case, library))
        .or_else(|| update_difference(&table, case, library))
        .or_else(|| offer_difference(&table, case, library))
        .or_else(|| finished_difference(&table, case, library))
        .or_else(|| table.change().map(|change| format!("the table: {change}")))
}

fn answer_difference(call: &str, wanted: u8, given: u8) -> Option<String> {
    (given != wanted).then(|| format!("{call} answers {given}, should be {wanted}"))
}

fn check_difference(table: &Lent, library: &Calls) -> Option<String> {
    answer_difference("check", table::check(table.bytes()), (library.check)(table.bytes()))
}

fn step_difference(table: &Lent, case: &TableCase, library: &Calls) -> Option<String> {
    let mut wanted_record = case.record.clone();
    let wanted = table::step(table.bytes(), &mut wanted_record, case.event);
    let mut record = Lent::bytes_of(&case.record);
    let given = (library.step)(table.bytes(), record.bytes_mut(), case.event);
    answer_difference("step", wanted, given)
        .or_else(|| record.difference(&wanted_record).map(|difference| format!("record after step: {difference}")))
}

/// The thin call takes no record of another length.
fn update_difference(table: &Lent, case: &TableCase, library: &Calls) -> Option<String> {
    if case.record.len() != RECORD_BYTES {
        return None;
    }
    let mut wanted_record = case.record.clone();
    let wanted = table::step(table.bytes(), &mut wanted_record, case.event);
    let mut record = case.record.clone();
    match update(table, &mut record, case.event, library) {
        Ok(given) => answer_difference("update", wanted, given)
            .or_else(|| (record != wanted_record).then(|| "record after update".to_string())),
        Err(difference) => Some(difference),
    }
}

fn offer_difference(table: &Lent, case: &TableCase, library: &Calls) -> Option<String> {
    let record = Lent::bytes_of(&case.record);
    let mut wanted_buffer = Lent::buffer(case.offer, case.table.len());
    let wanted = table::offer(table.bytes(), record.bytes(), wanted_buffer.bytes_mut());
    let mut buffer = Lent::buffer(case.offer, case.table.len());
    let given = (library.offer)(table.bytes(), record.bytes(), buffer.bytes_mut());
    answer_difference("offer", wanted, given)
        .or_else(|| buffer.difference(wanted_buffer.bytes()).map(|difference| format!("offered: {difference}")))
        .or_else(|| record.change().map(|change| format!("record after offer: {change}")))
}

fn finished_difference(table: &Lent, case: &TableCase, library: &Calls) -> Option<String> {
    let record = Lent::bytes_of(&case.record);
    let wanted = table::finished(table.bytes(), record.bytes());
    let given = (library.finished)(table.bytes(), record.bytes());
    answer_difference("finished", wanted, given)
        .or_else(|| record.change().map(|change| format!("record after finished: {change}")))
}
