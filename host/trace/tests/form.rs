//! The file form of a trace.

use port::{Done, Input, Limits, Opened, Sealed, Settings, Stepped, Violation, kinds};
use trace::{BadForm, Call, Trace};

fn small() -> Trace {
    let settings = Settings {
        servers: 1,
        ..Settings::default()
    };
    let limits = Limits {
        log: 5,
        ..Limits::default()
    };
    let input = Input {
        kind: kinds::input::START,
        server: 1,
        first: 0,
        second: 77,
        third: 0,
    };
    let mut trace = Trace::default();
    let start = Call::Start {
        settings: Box::new(settings),
        limits: Box::new(limits),
        seed: 9,
    };
    trace.push(start, Opened { refusal: 0, input });
    let put = Call::WritePut {
        index: 3,
        term: 2,
        kind: kinds::payload::COMMAND,
        payload: vec![1, 2, 3],
    };
    trace.push(put, Done::default());
    let seal = Call::Seal {
        refused: 0,
        hinted: 0,
        leader: 0,
    };
    trace.push(seal, Sealed::default());
    let message = (Stepped::default(), (0..20).collect());
    trace.push(Call::Step { deadline: 1 << 62 }, message);
    let place = 4;
    trace.push(Call::ReadViolation { place }, Violation::default());
    trace.push(Call::CheckDurability {}, Done::default());
    trace
}

#[test]
fn a_row_is_its_length_and_call_arguments_answer_bytes() {
    let words = small().to_words();
    let start = 1 + 14 + 6 + 1 + 6 + 1;
    assert_eq!(words[0], start);
    let put = &words[1 + start as usize..][..8];
    assert_eq!(put, [8, 8, 3, 2, 1, 3, 0x03_02_01, 0]);
    assert_eq!(words[1 + start as usize + 8], 0, "no bytes were lent");
}

#[test]
fn a_trace_comes_back() {
    let trace = small();
    assert_eq!(Trace::from_words(&trace.to_words()), Ok(trace.clone()));
    assert_eq!(Trace::from_bytes(&trace.to_bytes()), Ok(trace));
    assert_eq!(Trace::from_bytes(&[]), Ok(Trace::default()));
}

#[test]
fn what_is_no_trace_is_refused() {
    let words = small().to_words();
    let cut = &words[..words.len() - 1];
    assert_eq!(Trace::from_words(cut), Err(BadForm { row: 5 }));
    let mut unknown = words.clone();
    unknown[1] = 99;
    assert_eq!(Trace::from_words(&unknown), Err(BadForm { row: 0 }));
    let mut longer = words;
    longer[0] += 1;
    assert_eq!(Trace::from_words(&longer), Err(BadForm { row: 0 }));
    let mut bytes = small().to_bytes();
    bytes.push(0);
    assert_eq!(Trace::from_bytes(&bytes), Err(BadForm { row: 6 }));
}
