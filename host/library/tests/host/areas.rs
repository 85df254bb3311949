//! Areas in mid-run: a recorded run is made at the library, and stops are made on its way.

use compare::{Mode, record};
use library::Library;
use port::area_length;
use trace::{Call, Trace};

use super::lent::{OLD, PAST};

/// The run of a mode and a seed.
pub fn recorded(mode: Mode, seed: u64) -> Trace {
    record(mode, seed).trace
}

/// Makes the calls of a run but its reads, and shows the area behind every `every`th of them.
pub fn visit(trace: &Trace, every: usize, mut stop: impl FnMut(&[u8])) {
    let Some(Call::Start {
        settings, limits, ..
    }) = trace.exchanges.first().map(|e| &e.call)
    else {
        panic!("a run begins with a start");
    };
    let mut area = vec![OLD; area_length(settings, limits) as usize + PAST];
    let mut buffer = vec![OLD; limits.message.max(limits.payload) as usize];
    let acts = trace.exchanges.iter().filter(|e| !e.call.reads());
    let acts = acts.filter(|e| !matches!(e.call, Call::ChaosSchedule { .. }));
    for (number, exchange) in acts.enumerate() {
        let answer = exchange.call.make(&mut Library, &mut area, &mut buffer);
        assert_eq!(answer, exchange.answer, "{:?}", exchange.call);
        if number % every == every - 1 {
            stop(&area);
        }
    }
}
