//! Why a file is refused, found from the reference's exact values and not from what a converter
//! answered.

use crate::causes::FIXED_COUNTS;
use crate::rounded_axis::{outside, rounded, RoundedAxis};
use crate::{Cause, File, Float, Format, GridOfFile, Part, Reason};
use reference::{text, Records, END_LABEL, SINGLE};

/// All causes to refuse a file, each once.
pub fn causes(file: &File) -> Vec<Cause> {
    let Some(grids) = file.grids() else {
        return vec![Cause {
            part: Part::First,
            reason: Reason::NoHeader,
        }];
    };
    let mut all = Vec::new();
    let mut add = |part, reasons: Vec<Reason>| {
        for cause in reasons.into_iter().map(|reason| Cause { part, reason }) {
            if !all.contains(&cause) {
                all.push(cause);
            }
        }
    };
    add(Part::First, file_reasons(file, &grids));
    add(Part::Subgrid, missing_subgrid_reasons(file, &grids));
    for grid in &grids {
        add(grid.part, grid_reasons(file, grid));
        add(grid.part, header_reasons(&grids, grid));
        let values = file.values_of(grid);
        add(
            grid.part,
            values
                .filter_map(|it| value_reason(file.format, it))
                .collect(),
        );
    }
    all
}

/// The reasons of a file's own: its length, and an NTv2 file's overview and END, which is at its
/// place only in a file of the exact length.
fn file_reasons(file: &File, grids: &[GridOfFile]) -> Vec<Reason> {
    let length = length_reason(file, grids);
    let mut reasons: Vec<Reason> = length.into_iter().collect();
    let Some(overview) = file.overview() else {
        return reasons;
    };
    reasons.extend(label_reasons(&overview));
    let end = &file.bytes[file.bytes.len() - file.format.layout().end..];
    if length.is_none() && end[..8] != text(END_LABEL) {
        reasons.push(Reason::Label(END_LABEL));
    }
    if overview.value("GS_TYPE") != text("SECONDS") {
        reasons.push(Reason::Type);
    }
    for (label, limits) in FIXED_COUNTS {
        let side = outside(overview.count(label).into(), limits);
        reasons.extend(side.map(|side| Reason::RecordCount(label, side)));
    }
    reasons
}

/// The file's length against its headers, its end and as many nodes as all its grids ask for, where
/// that can be said.
fn length_reason(file: &File, grids: &[GridOfFile]) -> Option<Reason> {
    if grids.len() == 1 && file.says_subgrid() {
        return None;
    }
    let layout = file.format.layout();
    let mut wanted = (layout.headers + layout.end) as i128;
    wanted += ((grids.len() - 1) * Records::BYTES) as i128;
    for grid in grids {
        wanted += layout.node as i128 * grid.nodes_asked_for(file.format)?;
    }
    outside(file.bytes.len() as i128, [wanted; 2]).map(Reason::FileLength)
}

/// A subgrid that the file says to have and is too short for, where that can be said, or a buffer
/// for a subgrid that it does not have.
fn missing_subgrid_reasons(file: &File, grids: &[GridOfFile]) -> Vec<Reason> {
    if grids.len() == 2 {
        return Vec::new();
    }
    match file.says_subgrid() {
        true => vec![Reason::NoHeader],
        false if file.buffer_lengths[1] > 0 => vec![Reason::NoSubgrid],
        false => Vec::new(),
    }
}

/// The reasons in a grid's axes, its buffer, and its count of nodes.
fn grid_reasons(file: &File, grid: &GridOfFile) -> Vec<Reason> {
    let layout = file.format.layout();
    let axes = grid
        .axes
        .iter()
        .map(|it| RoundedAxis::of(it, layout.angle_scale));
    let mut reasons: Vec<Reason> = axes.flat_map(|it| it.reasons()).collect();
    let Some(nodes) = grid.nodes_asked_for(file.format) else {
        return reasons;
    };
    let wanted = layout.buffer_node as i128 * nodes;
    let length = file.buffer_lengths[usize::from(grid.part == Part::Subgrid)];
    reasons.extend(outside(length as i128, [wanted; 2]).map(Reason::BufferLength));
    let count = grid.header.map(|it| i128::from(it.count("GS_COUNT")));
    let side = count.and_then(|it| outside(it, [nodes; 2]));
    reasons.extend(side.map(|side| Reason::RecordCount("GS_COUNT", side)));
    reasons
}

/// The reasons in the labels of a grid's header, and in its PARENT.
fn header_reasons(grids: &[GridOfFile], grid: &GridOfFile) -> Vec<Reason> {
    let (Some(header), Some(first)) = (grid.header, grids[0].header) else {
        return Vec::new();
    };
    let wanted = match grid.part {
        Part::First => text("NONE"),
        Part::Subgrid => first.value("SUB_NAME"),
    };
    let parent = (header.value("PARENT") != wanted).then_some(Reason::Parent);
    label_reasons(&header).chain(parent).collect()
}

fn label_reasons(records: &Records) -> impl Iterator<Item = Reason> + '_ {
    let wrong = records
        .labelled()
        .filter(|(label, record)| record.label != text(label));
    wrong.map(|(label, _)| Reason::Label(label))
}

fn value_reason(format: Format, value: Float) -> Option<Reason> {
    let layout = format.layout();
    let limit = layout.value_limit;
    match rounded(SINGLE, value.bits, layout.value_scale) {
        Ok(it) => outside(it, [-limit, limit]).map(|side| Reason::Value(value.name, side)),
        Err(kind) => Some(Reason::ValueNotFinite(value.name, kind)),
    }
}
