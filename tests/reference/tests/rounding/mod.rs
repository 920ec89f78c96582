//! Document 02's note 3: its six cases beside "the exact value plus one half, rounded down", and
//! the worked numbers of docs/ROUNDING.md.

use crate::common::{grid_g, point_at};
use crate::sloping_g;
use reference::{open_image, Fraction};
use std::cmp::Ordering::{Equal, Greater, Less};
use std::collections::BTreeSet;

/// A sum that is rounded by hand.
#[derive(Debug, PartialEq)]
struct Sheet {
    case: i128,
    sum: i128,
    quotient: i128,
    remainder: i128,
    value: i128,
}

/// "Cases on the remainder of the sum's absolute value by P × Q: below half, exactly half, above
/// half, each for negative and non-negative sums."
fn sheet(sum: i128, area: i128) -> Sheet {
    let (quotient, remainder) = (sum.abs() / area, sum.abs() % area);
    let (case, value) = match (sum < 0, (2 * remainder).cmp(&area)) {
        (false, Less) => (1, quotient),
        (false, Equal) => (2, quotient + 1),
        (false, Greater) => (3, quotient + 1),
        (true, Less) => (4, -quotient),
        (true, Equal) => (5, -quotient),
        (true, Greater) => (6, -(quotient + 1)),
    };
    Sheet {
        case,
        sum,
        quotient,
        remainder,
        value,
    }
}

#[test]
fn the_six_cases_give_the_exact_value_plus_one_half_rounded_down() {
    let mut met = BTreeSet::new();
    for area in 1..=60 {
        for sum in -200..=200 {
            let sheet = sheet(sum, area);
            let exact = Fraction::new(sum, area);
            assert_eq!(sheet.value, exact.plus_half_rounded_down(), "{sum}/{area}");
            met.insert((sheet.case, area % 2));
        }
    }
    // No remainder is exactly half of an odd area.
    assert_eq!(met.len(), 6 + 4, "{met:?}");
}

/// The numbers in a cell of a table: 100,400,000 or −50; of (100, 0) both.
fn numbers(cell: &str) -> Vec<i128> {
    let plain = cell.replace('−', "-").replace([')', '('], "");
    let parts = plain.split(", ");
    parts
        .filter_map(|it| it.replace(',', "").parse().ok())
        .collect()
}

/// A line of the page's table of worked numbers, and the sheet of the point that it names.
fn line_and_sheet(cells: &[&str]) -> (Sheet, Sheet) {
    let [case, value_of, place, sum, quotient, remainder, twice, value] = cells else {
        panic!("{cells:?}");
    };
    let number = |cell: &str| numbers(cell)[0];
    let line = Sheet {
        case: number(case.trim_end_matches('°')),
        sum: number(sum),
        quotient: number(quotient),
        remainder: number(remainder),
        value: number(value),
    };
    assert_eq!(number(twice), 2 * line.remainder);
    let bytes = if case.ends_with('°') {
        sloping_g()
    } else {
        grid_g()
    };
    let [latitude, longitude] = numbers(place)[..] else {
        panic!("{place}");
    };
    let point = point_at(latitude as i64, longitude as i64);
    let exact = open_image(&bytes)
        .unwrap()
        .exact_corrections(point)
        .unwrap();
    let which = usize::from(*value_of == "longitude correction");
    let (sum, area) = exact[which].parts();
    (line, sheet(sum, area))
}

#[test]
fn the_worked_numbers_of_the_page_are_those_of_grid_g() {
    let page = include_str!("../../../../docs/ROUNDING.md");
    let table = page.lines().filter(|it| it.contains(" correction | ("));
    let mut cases = Vec::new();
    for line in table {
        let cells: Vec<&str> = line.trim_matches('|').split('|').map(str::trim).collect();
        let (written, computed) = line_and_sheet(&cells);
        assert_eq!(written, computed, "{line}");
        cases.push(written.case);
    }
    assert_eq!(cases, [1, 2, 3, 4, 4, 5, 6]);
}
