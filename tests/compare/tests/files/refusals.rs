//! The refusals of the made-up files.

use super::{files, nd, values_of};
use crate::made_up::SEED;
use compare::{causes, Call, Cause, File, Format, GridOfFile, Part, Reason, Stream};
use reference::Number;
use std::collections::BTreeSet;

fn number(file: &File) -> Number {
    file.converted().err().unwrap_or(0)
}

/// The first refusal that the causes lead to is the reference's.
#[test]
fn causes_and_the_reference_agree() {
    for format in Format::ALL {
        for file in files(format) {
            let causes = causes(&file);
            let first = causes.iter().map(|cause| cause.number(format)).min();
            assert_eq!(number(&file), first.unwrap_or(0), "{causes:?}");
        }
    }
}

/// In some more of NTv2's files, which have many causes.
#[test]
fn every_cause_of_the_first_refusal_occurs_beside_an_unfit_node() {
    for (format, cases) in [(Format::Vdatum, 20_000), (Format::Ntv2, 60_000)] {
        let mut met = Vec::new();
        for index in 0..cases {
            let Call::ConvertFile(file) = Stream::Files(format).call(SEED, index) else {
                panic!("another call");
            };
            let (of_nodes, others): (Vec<Cause>, Vec<Cause>) =
                causes(&file).into_iter().partition(|it| it.is_of_a_node());
            if let ([only], [_, ..]) = (&others[..], &of_nodes[..]) {
                met.push(*only);
            }
        }
        let missing: Vec<Cause> = Cause::all(format)
            .into_iter()
            .filter(|it| !it.is_of_a_node() && !met.contains(it))
            .filter(|it| (it.part, it.reason) != (Part::First, Reason::NoHeader))
            .collect();
        assert_eq!(missing, []);
    }
}

/// Where the only value that the second refusal names stands, if it is one.
fn place_of_the_only_unfit_value(file: &File) -> Option<&'static str> {
    let layout = file.format.layout();
    let values = values_of(file).into_iter();
    let values: Vec<bool> = values.map(|it| layout.allows(it)).collect();
    if values.iter().filter(|fit| !**fit).count() != 1 {
        return None;
    }
    Some(match values[..] {
        [false, ..] => "first",
        [.., false] => "last",
        _ => "between",
    })
}

#[test]
fn the_second_refusal_comes_from_the_first_value_alone_and_from_the_last_one_alone() {
    for format in Format::ALL {
        let second = format.layout().refusals[1];
        let refused = files(format).filter(|file| number(file) == second);
        let places: BTreeSet<&str> = refused
            .filter_map(|file| place_of_the_only_unfit_value(&file))
            .collect();
        assert_eq!(places.len(), 3, "{places:?}");
    }
}

/// How much longer the file is than its headers ask for, and each buffer, where all else is fit.
fn length_differences(format: Format) -> BTreeSet<(&'static str, i64)> {
    let layout = format.layout();
    let mut met = BTreeSet::new();
    for file in files(format) {
        let only_lengths =
            |it: &Cause| matches!(it.reason, Reason::FileLength(_) | Reason::BufferLength(_));
        let causes = causes(&file);
        let length = file.bytes.len() as i64;
        let Some(grids) = file.grids() else {
            met.insert(("no header", length));
            continue;
        };
        if !causes.iter().all(only_lengths) {
            continue;
        }
        let nodes: Vec<i64> = grids.iter().map(|it| nodes_asked_for(format, it)).collect();
        let headers = layout.headers + 176 * (grids.len() - 1) + layout.end;
        let asked: i64 = nodes.iter().map(|it| layout.node as i64 * it).sum();
        met.insert(("file", length - headers as i64 - asked));
        let names = ["buffer", "second buffer"].into_iter();
        for (name, (nodes, room)) in names.zip(nodes.into_iter().zip(file.buffer_lengths)) {
            met.insert((name, room as i64 - layout.buffer_node as i64 * nodes));
        }
    }
    met
}

/// Rows times columns of a grid whose axes are fit.
fn nodes_asked_for(format: Format, grid: &GridOfFile) -> i64 {
    let nd = |it| nd(format, it).expect("a fit angle") as i64;
    let lines = grid.axes.map(|axis| match axis.high {
        Some(high) => (nd(high) - nd(axis.low)) / nd(axis.spacing) + 1,
        None => axis.lines.expect("a count").into(),
    });
    lines[0] * lines[1]
}

#[test]
fn lengths_are_one_byte_and_one_node_too_few_and_too_many() {
    for (format, buffers, short) in [
        (Format::Vdatum, &["buffer"][..], &[0, 1, 8, 39][..]),
        (
            Format::Ntv2,
            &["buffer", "second buffer"],
            &[0, 1, 16, 175, 176, 351, 352, 367],
        ),
    ] {
        let layout = format.layout();
        let met = length_differences(format);
        let buffers = buffers.iter().map(|it| (*it, layout.buffer_node));
        for (name, node) in [("file", layout.node)].into_iter().chain(buffers) {
            let node = node as i64;
            for change in [-node, -1, 0, 1, node] {
                assert!(met.contains(&(name, change)), "{name} {change}");
            }
        }
        for length in short {
            assert!(met.contains(&("no header", *length)), "{length}");
        }
    }
}
