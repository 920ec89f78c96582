//! The command line of the program.

use crate::{Case, Format, Stream};

pub const USAGE: &str = "usage: compare [STREAM] [--seed N] [--count N] [--progress]
       compare [STREAM] --replay SEED:INDEX
STREAM is --edition 1|2, --kind 1|2|3 (of edition 2, with a dense grid, answering past the edge, or
in planes and converted) or --files vdatum|ntv2";

/// What the program is asked to do.
#[derive(Clone, Debug, PartialEq, Eq)]
pub enum Command {
    /// Compares so many calls of each stream.
    Run {
        streams: Vec<Stream>,
        seed: u64,
        count: u64,
        progress: bool,
    },
    Replay(Case),
}

/// Reads the words of the command line; nothing if they cannot be understood. Where they name no
/// stream, a run takes all of them, and a replay edition 1's.
pub fn parse(mut words: impl Iterator<Item = String>) -> Option<Command> {
    let (mut seed, mut count, mut progress) = (1, 20_000, false);
    let (mut streams, mut replay) = (Stream::ALL.to_vec(), None);
    while let Some(word) = words.next() {
        match word.as_str() {
            "--edition" => streams = vec![Stream::of_edition(words.next()?.parse().ok()?)?],
            "--kind" => streams = vec![Stream::of_kind(words.next()?.parse().ok()?)?],
            "--files" => streams = vec![Stream::Files(Format::named(&words.next()?)?)],
            "--seed" => seed = words.next()?.parse().ok()?,
            "--count" => count = words.next()?.parse().ok()?,
            "--progress" => progress = true,
            "--replay" => replay = Some(words.next()?),
            _ => return None,
        }
    }
    let Some(case) = replay else {
        return Some(Command::Run {
            streams,
            seed,
            count,
            progress,
        });
    };
    let (seed, index) = case.split_once(':')?;
    Some(Command::Replay(Case {
        stream: streams[0],
        seed: seed.parse().ok()?,
        index: index.parse().ok()?,
    }))
}

#[cfg(test)]
mod tests {
    use super::{parse, Case, Command, Format, Stream};

    const VDATUM: Stream = Stream::Files(Format::Vdatum);
    const NTV2: Stream = Stream::Files(Format::Ntv2);

    fn parsed(line: &str) -> Option<Command> {
        parse(line.split_whitespace().map(String::from))
    }

    #[test]
    fn a_run_has_streams_seed_count_and_progress() {
        let run = |streams: &[Stream], seed, count, progress| {
            Some(Command::Run {
                streams: streams.to_vec(),
                seed,
                count,
                progress,
            })
        };
        let all = Stream::ALL;
        assert_eq!(parsed(""), run(&all, 1, 20_000, false));
        let line = "--count 7 --progress --seed 3";
        assert_eq!(parsed(line), run(&all, 3, 7, true));
        let alone = |stream| run(&[stream], 1, 7, false);
        assert_eq!(parsed("--edition 2 --count 7"), alone(Stream::EditionTwo));
        assert_eq!(parsed("--kind 1 --count 7"), alone(Stream::KindOne));
        assert_eq!(parsed("--kind 2 --count 7"), alone(Stream::KindTwo));
        assert_eq!(parsed("--kind 3 --count 7"), alone(Stream::KindThree));
        assert_eq!(parsed("--files vdatum --count 7"), alone(VDATUM));
        assert_eq!(parsed("--files ntv2 --count 7"), alone(NTV2));
    }

    #[test]
    fn a_replay_has_stream_seed_and_index() {
        let replay = |stream| {
            Some(Command::Replay(Case {
                stream,
                seed: 3,
                index: 41,
            }))
        };
        assert_eq!(parsed("--replay 3:41"), replay(Stream::EditionOne));
        let second = "--edition 2 --replay 3:41";
        assert_eq!(parsed(second), replay(Stream::EditionTwo));
        assert_eq!(parsed("--kind 1 --replay 3:41"), replay(Stream::KindOne));
        assert_eq!(parsed("--kind 2 --replay 3:41"), replay(Stream::KindTwo));
        assert_eq!(parsed("--kind 3 --replay 3:41"), replay(Stream::KindThree));
        assert_eq!(parsed("--files ntv2 --replay 3:41"), replay(NTV2));
    }

    #[test]
    fn other_words_are_not_understood() {
        for line in [
            "--count",
            "--count x",
            "--edition 3",
            "--kind",
            "--kind 0",
            "--kind 4",
            "--files",
            "--files gtx",
            "--replay 3",
            "--replay 3:x",
            "more",
        ] {
            assert_eq!(parsed(line), None);
        }
    }
}
