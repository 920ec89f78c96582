# What tests/gridcheck and tests/roundtrip share: inputs made from grid G's 148 bytes and from images of edition 2, of kinds 0 to 3,
# and the comparison of what a program prints.
# To be sourced, with `program` set to the program's name. It is target/bin/NAME, written by `tests/artifacts`.
# shellcheck shell=bash disable=SC2154
set -u
cd "$(dirname "${BASH_SOURCE[0]}")/.." || exit 2
grid=crates/gridcheck/stdin
folder=$(mktemp -d)
trap 'rm -rf "$folder"' EXIT
failures=0

# answers NAME FILE LINES WORD ..: the program, called with the words, prints just these lines for the file's bytes. Prints `ok NAME` or
# `FAILED NAME`.
answers() {
    local name=$1 file=$2 lines=$3
    shift 3
    if [ "$("target/bin/$program" "$@" <"$file" | od -c)" = "$(echo "$lines" | od -c)" ]; then
        echo "ok $program: $name"
    else
        echo "FAILED $program: $name"
        failures=$((failures + 1))
    fi
}

# byte NUMBER: writes one byte.
byte() {
    # shellcheck disable=SC2059
    printf "\\x$(printf %02x "$1")"
}

# changed PLACE BYTE ..: the name of a file with G's bytes, of which those at the places are set.
changed() {
    changed_from "$grid" "$@"
}

# changed_from FILE PLACE BYTE ..: the same from another file's bytes.
changed_from() {
    cp "$1" "$folder/image"
    shift
    while [ $# -gt 0 ]; do
        byte "$2" | dd of="$folder/image" bs=1 seek="$1" conv=notrunc status=none
        shift 2
    done
    echo "$folder/image"
}

# numbers SIZE NUMBER ..: writes each number in so many bytes, the lowest first.
numbers() {
    local size=$1 number place
    shift
    for number in "$@"; do
        for ((place = 0; place < size; place++)); do
            byte $(((number >> (8 * place)) & 255))
        done
    done
}

# two_grids: writes an image of edition 2, 200 bytes: G's corrections, and heights 430,000 + 3 * row + 4 * column on a grid of 4 rows and
# 3 columns, spacings 700 and 900, from 400 nd south and 100 nd east of G's corner.
two_grids() {
    local node
    for node in 0 1 2 3 4 5 6 7 8; do
        numbers 4 $((100 + 4 * (node / 3))) -50
    done
    behind_corrections 0
}

# two_grids_in_planes: writes the same image of kind 3, the nine latitude corrections and then the nine longitude corrections.
two_grids_in_planes() {
    numbers 4 100 100 100 104 104 104 108 108 108
    numbers 4 -50 -50 -50 -50 -50 -50 -50 -50 -50
    behind_corrections 3
}

# behind_corrections KIND: writes what follows the corrections of these images.
behind_corrections() {
    heights
    numbers 8 52000000000 5000000000
    numbers 4 1000 1000 3 3
    height_geometry
    numbers 4 200 128 "$1" 2
}

# heights, height_geometry: writes the nodes and the geometry of these heights.
heights() {
    local node
    for node in 0 1 2 3 4 5 6 7 8 9 10 11; do
        numbers 4 $((430000 + 3 * (node / 3) + 4 * (node % 3)))
    done
}

height_geometry() {
    numbers 8 51999999600 5000000100
    numbers 4 700 900 4 3
}

# past_the_edge SOUTH: writes an image of kind 2, 328 bytes: corrections at 5 rows and columns, spacings 1,000, from that latitude and G's
# western longitude, 5 in latitude and -4 in longitude for each step from the border; and the heights of two_grids.
past_the_edge() {
    local steps
    for steps in 0 0 0 0 0 0 1 1 1 0 0 1 2 1 0 0 1 1 1 0 0 0 0 0 0; do
        numbers 4 $((5 * steps)) $((-4 * steps))
    done
    heights
    numbers 8 "$1" 5000000000
    numbers 4 1000 1000 5 5
    height_geometry
    numbers 4 328 128 2 2
}

# three_grids: writes an image of kind 1, 276 bytes: G's geometry with latitude corrections of 300, 305 and 310 by row, heights of 430,000
# at its corners, and in its north-eastern cell a dense grid of 3 rows and columns, spacings 500, with 306, then 307 with 309 between them,
# then 310, where the corrections above have 305, 307.5 and 310. The longitude corrections are -50.
three_grids() {
    local latitude
    for latitude in 306 306 306 307 309 307 310 310 310; do
        numbers 4 $latitude -50
    done
    numbers 8 52000001000 5000001000
    numbers 4 500 500 3 3 276
    for latitude in 300 300 300 305 305 305 310 310 310; do
        numbers 4 $latitude -50
    done
    numbers 4 430000 430000 430000 430000
    numbers 8 52000000000 5000000000
    numbers 4 1000 1000 3 3
    numbers 8 52000000000 5000000000
    numbers 4 2000 2000 2 2
    numbers 4 168 96 1 2
}

# padded SIZE: the name of a file of so many bytes that ends in G's.
padded() {
    { head -c $(($1 - 148)) /dev/zero && cat "$grid"; } >"$folder/image"
    echo "$folder/image"
}
