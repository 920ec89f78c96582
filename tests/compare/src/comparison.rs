//! The comparison itself: a converter beside the reference, call by call.

use crate::{Arranging, Call, Converter, Coverage, Outcome, Random, Reference, Stream};

/// A case: a call of a stream, by its seed and index.
#[derive(Clone, Copy, Debug, PartialEq, Eq)]
pub struct Case {
    pub stream: Stream,
    pub seed: u64,
    pub index: u64,
}

impl Case {
    /// By how many bytes lent bytes are moved.
    fn shift(self) -> usize {
        (self.index % 8) as usize
    }
}

/// A case in which the converter's outcome is not the reference's.
#[derive(Debug)]
pub struct Difference {
    pub case: Case,
    pub call: Call,
    pub expected: Outcome,
    pub found: Outcome,
}

/// Compares the cases of a stream from index 0 on, until the stream has counted so many calls.
/// What they met, or the first difference. Each index is told before its call.
pub fn compare(
    tested: &dyn Converter,
    stream: Stream,
    seed: u64,
    count: u64,
    mut tell: impl FnMut(u64),
) -> Result<Coverage, Box<Difference>> {
    let mut coverage = Coverage::of(stream);
    let mut index = 0;
    while coverage.calls < count {
        tell(index);
        let case = Case {
            stream,
            seed,
            index,
        };
        let (call, outcome) = compare_case(tested, case)?;
        coverage.add(&call, &outcome);
        index += 1;
    }
    Ok(coverage)
}

/// Compares one case. Its call with the outcome, or the difference. A call with bytes that are not
/// read is made again with others in their place; an image that was converted into another
/// arrangement must give what it gave before.
pub fn compare_case(
    tested: &dyn Converter,
    case: Case,
) -> Result<(Call, Outcome), Box<Difference>> {
    let call = case.stream.call(case.seed, case.index);
    let expected = call.perform(&Reference, case.shift());
    let mut random = Random::for_case(case.seed, case.index);
    let again = call.with_other_unread_bytes(&mut random);
    for call in [&call].into_iter().chain(&again) {
        compare_call(tested, case, call, &expected)?;
    }
    if let (Call::Arrange(given), 0) = (&call, expected.number) {
        compare_converted(tested, case, given, &expected.nodes[0])?;
    }
    Ok((call, expected))
}

/// Compares what comes of a call of a case with what is expected.
fn compare_call(
    tested: &dyn Converter,
    case: Case,
    call: &Call,
    expected: &Outcome,
) -> Result<(), Box<Difference>> {
    let found = call.perform(tested, case.shift());
    if *expected == found {
        return Ok(());
    }
    Err(Box::new(Difference {
        case,
        call: call.clone(),
        expected: expected.clone(),
        found,
    }))
}

/// Compares the check and both lists over a converted image with those over the image that it was
/// made from, and there and back with that image, for the converter and for the reference.
fn compare_converted(
    tested: &dyn Converter,
    case: Case,
    given: &Arranging,
    converted: &[u8],
) -> Result<(), Box<Difference>> {
    let (back, image) = given.there_and_back(converted);
    for converter in [tested, &Reference] {
        compare_call(converter, case, &back, &image)?;
    }
    for [before, after] in given.before_and_after(converted) {
        let expected = before.perform(&Reference, case.shift());
        compare_call(tested, case, &before, &expected)?;
        for converter in [tested, &Reference] {
            compare_call(converter, case, &after, &expected)?;
        }
    }
    Ok(())
}
