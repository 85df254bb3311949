//! `bucketbeach replay`.

use std::fs;

use trace::Trace;

use crate::difference::{told, whereabouts};
use crate::nodes::Choice;
use crate::options::ReplayOptions;
use crate::print;
use crate::words::count;

/// Makes the calls of a file and compares their answers. Returns the exit status.
///
/// # Errors
///
/// A line about a file that is no trace.
pub fn replay(choice: &Choice, options: &ReplayOptions) -> Result<u8, String> {
    let name = options.file.display();
    let bytes = fs::read(&options.file);
    let bytes = bytes.map_err(|error| format!("{name} cannot be read: {error}"))?;
    let trace = Trace::from_bytes(&bytes);
    let trace = trace.map_err(|bad| format!("{name} is no trace: {bad}"))?;
    if trace.exchanges.is_empty() {
        return Err(format!("{name} is no trace: it has no call"));
    }
    if let Some(place) = trace.unlendable() {
        return Err(format!(
            "{name} is no run: call {place} lends more memory than any run has use for"
        ));
    }
    let made = (choice.replay)(&trace);
    match made {
        Ok(made) => {
            let (calls, compared) = (choice.calls, count(made as u64, "call"));
            print(&format!(
                "{name}: no difference: {compared} compared at {calls}\n"
            ));
            Ok(0)
        }
        Err(difference) => {
            let at = whereabouts(&trace, difference.place);
            let story = told(&trace, &difference, options.told.before);
            print(&format!("{name} DIFFERS at {at}\n{story}"));
            Ok(1)
        }
    }
}
