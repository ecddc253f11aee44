//! The sample of document 01, byte for byte as it is printed there.

const HEX: &str = "
    01 0004 0003 0005
    02 0006 0000 0001 0001
    02 0006 0001 0002 0002
    02 0006 0000 0002 0003
    03 0009 02 0000 0002 0001 0004
    03 0009 01 0000 0002 0000 0005
    04 0002 0005
    04 0002 FFFC
    05 0000";

/// What `linkdimacs` prints for it, worked out by hand: R(0, w), T(0, e), R(1, w) of
/// atom 1 are 6 to 8, 9 to 11, 12 to 14; those of atom 2 begin at 15, 18, 21, 24, 27.
pub const DIMACS: &str = "\
p cnf 29 66
5 0
-4 0
c atom 1
6 0
-7 0
-8 0
-9 1 0
-9 6 0
-1 -6 9 0
-10 2 0
-10 7 0
-2 -7 10 0
-11 3 0
-11 6 0
-3 -6 11 0
-12 6 0
-6 12 0
-13 7 9 0
-7 13 0
-9 13 0
-14 8 10 11 0
-8 14 0
-10 14 0
-11 14 0
-4 14 0
4 -14 0
c atom 2
15 0
-16 0
-17 0
-18 1 0
-18 15 0
-1 -15 18 0
-19 2 0
-19 16 0
-2 -16 19 0
-20 3 0
-20 15 0
-3 -15 20 0
-21 15 0
-15 21 0
-22 16 18 0
-16 22 0
-18 22 0
-23 17 19 20 0
-17 23 0
-19 23 0
-20 23 0
-24 1 0
-24 21 0
-1 -21 24 0
-25 2 0
-25 22 0
-2 -22 25 0
-26 3 0
-26 21 0
-3 -21 26 0
-27 21 0
-21 27 0
-28 22 24 0
-22 28 0
-24 28 0
-29 23 25 26 0
-23 29 0
-25 29 0
-26 29 0
-5 29 0
5 -29 0
";

pub fn bytes() -> Vec<u8> {
    let digits: Vec<u8> = HEX
        .chars()
        .filter_map(|digit| digit.to_digit(16))
        .map(|digit| digit as u8)
        .collect();
    digits
        .chunks(2)
        .map(|pair| pair[0] << 4 | pair[1])
        .collect()
}
