//! An image of edition 1 and its twin of edition 2, with the heights on the correction grid, give
//! the same wherever question 9 lets all nodes pass. An image of kind 0 and its twin of kind 1, with
//! the correction nodes as dense ones too, give the same in the check and going back. An image of
//! kind 0 and the same bytes of kind 2 give the same but for 8, 10, 15 and 22. An image of kind 0 and
//! its twin of kind 3 give the same, and so do those of kind 3 and their twins of kind 0.

use compare::{Call, List, Outcome, Reference, Stream, Way};
use reference::{
    arrange, open_image, write_dense, write_two_grids, Arrangement, DenseTrailer, Image,
    TwoGridTrailer,
};

/// The twin of an image of edition 1 that opens and whose nodes all pass question 9.
fn twin(image: &[u8]) -> Option<Vec<u8>> {
    let Ok(Image::OneGrid(grid)) = open_image(image) else {
        return None;
    };
    let nodes = grid.all_nodes();
    if !nodes.iter().all(|node| grid.node_fits(node)) {
        return None;
    }
    let corrections: Vec<[i32; 2]> = nodes.iter().map(|node| [node[0], node[1]]).collect();
    let heights: Vec<[i32; 1]> = nodes.iter().map(|node| [node[2]]).collect();
    let trailer = TwoGridTrailer::over(grid.geometry, grid.geometry);
    Some(write_two_grids(&corrections, &heights, &trailer))
}

/// The twin of kind 1 of an image of kind 0 or 3 that opens: the dense grid is the whole coarse one.
fn dense_twin(image: &[u8]) -> Option<Vec<u8>> {
    let Ok(Image::TwoGrids {
        corrections,
        heights,
        dense: None,
        unbounded: false,
    }) = open_image(image)
    else {
        return None;
    };
    let trailer = TwoGridTrailer {
        kind: 1,
        ..TwoGridTrailer::over(corrections.geometry, heights.geometry)
    };
    let nodes = corrections.all_nodes();
    let rest = write_two_grids(&nodes, &heights.all_nodes(), &trailer);
    let dense_trailer = DenseTrailer::over(corrections.geometry, &trailer);
    Some(write_dense(&nodes, &dense_trailer, &rest))
}

/// The same bytes of kind 2, if the image opens as kind 0.
fn unbounded_twin(image: &[u8]) -> Option<Vec<u8>> {
    let trailer = TwoGridTrailer::read(image).filter(|it| it.edition == 2 && it.kind == 0)?;
    open_image(image).ok()?;
    let trailer = TwoGridTrailer { kind: 2, ..trailer };
    let nodes = &image[..image.len() - 80];
    Some([nodes, &trailer.write()].concat())
}

/// The twin of kind 3 of an image of kind 0 that opens, and the other way round, without the bytes
/// before the first node.
fn twin_in(arrangement: Arrangement, image: &[u8]) -> Option<Vec<u8>> {
    let trailer = TwoGridTrailer::read(image)?;
    arrange(arrangement, image, trailer.correction_back as usize).ok()
}

/// The call over the twin of its image.
fn over_twin(call: &Call, twin: fn(&[u8]) -> Option<Vec<u8>>) -> Option<Call> {
    let image = twin(call.image()?)?;
    match call {
        Call::GridCheck { .. } => Some(Call::GridCheck { image }),
        Call::List(list) => Some(Call::List(List {
            image,
            ..list.clone()
        })),
        _ => None,
    }
}

/// Compares the reference's outcomes of calls and of the same over their images' twins.
fn compare_twins(
    stream: Stream,
    twin: fn(&[u8]) -> Option<Vec<u8>>,
    wanted: impl Fn(&Call) -> bool,
) {
    let outcome = |call: &Call| -> Outcome { call.perform(&Reference, 0) };
    let mut compared = 0;
    for index in 0..20_000 {
        let call = stream.call(3, index);
        if let Some(other) = over_twin(&call, twin).filter(|_| wanted(&call)) {
            assert_eq!(outcome(&call), outcome(&other), "{call}");
            compared += 1;
        }
    }
    assert!(compared > 5_000, "{compared}");
}

#[test]
fn twins_give_the_same() {
    compare_twins(Stream::EditionOne, twin, |_| true);
}

#[test]
fn twins_in_planes_give_the_same() {
    let twin = |image: &[u8]| twin_in(Arrangement::Planes, image);
    compare_twins(Stream::EditionTwo, twin, |_| true);
}

#[test]
fn twins_in_nodes_give_the_same() {
    let twin = |image: &[u8]| twin_in(Arrangement::Nodes, image);
    compare_twins(Stream::KindThree, twin, |_| true);
}

/// Going out the stop distance differs.
#[test]
fn dense_twins_give_the_same_in_the_check_and_going_back() {
    compare_twins(Stream::EditionTwo, dense_twin, |call| match call {
        Call::List(list) => list.way == Way::Back,
        _ => true,
    });
}

/// The check gives the same unless 22; a fix gets the same unless 8, 10 or 15.
#[test]
fn unbounded_twins_give_the_same_where_kind_0_has_an_answer() {
    let (mut checks, mut fixes, mut others) = (0, 0, 0);
    for index in 0..20_000 {
        let call = Stream::EditionTwo.call(3, index);
        let Some(twin) = over_twin(&call, unbounded_twin) else {
            continue;
        };
        let [one, other] = [&call, &twin].map(|it| it.perform(&Reference, 0));
        if let (Call::List(_), 0) = (&call, one.number) {
            let answers = one.written.chunks(5).zip(other.written.chunks(5));
            for (answer, of_twin) in answers {
                let is_put = [8, 10, 15].contains(&answer[4]);
                assert!(is_put || answer == of_twin, "{call}");
                (fixes, others) = (fixes + i32::from(!is_put), others + i32::from(is_put));
            }
        } else if other.number != 22 {
            assert_eq!(one, other, "{call}");
            checks += 1;
        }
    }
    assert!(
        checks > 1_000 && fixes > 5_000 && others > 5_000,
        "{checks} {fixes} {others}"
    );
}
