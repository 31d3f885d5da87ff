//! Readings 1 to 10: the places where a sentence about `netrun` can be read two ways.

use oracle::netrun;

/// Empty lines answer in 5 bytes each. So many of them leave 4 of the 16,384 free, which
/// is the answer to `C`.
const LINES: usize = 3_276;

fn prints(script: &str, expected: &str) {
    let printed = netrun(script.as_bytes());
    assert_eq!(String::from_utf8_lossy(&printed), expected, "{script:?}");
}

/// Each of these lines, alone, is a bad line.
fn all_bad(lines: &[&[u8]]) {
    for line in lines {
        let shown = String::from_utf8_lossy(line);
        assert_eq!(netrun(line), b"? 10\n", "{shown:?}");
    }
}

#[test]
fn reading_1_the_lines_before_a_stop_by_7_are_printed() {
    let answers = "? 10\n".repeat(LINES);
    let script = format!("{}C\n\n", "\n".repeat(LINES));
    let expected = format!("{answers}C 0\n! 7\n");
    assert_eq!(expected.len(), 16_388);
    prints(&script, &expected);
}

#[test]
fn reading_1_a_script_too_long_prints_nothing_else() {
    let longest = format!("N 1\n{}", "x".repeat(16_380));
    prints(&longest, "N 0 0\n? 10\n");
    prints(&format!("{longest}x"), "! 1\n");
}

#[test]
fn reading_2_a_line_fits_that_ends_at_byte_16_384() {
    let answers = "? 10\n".repeat(LINES);
    prints(
        &format!("{}C\n", "\n".repeat(LINES)),
        &format!("{answers}C 0\n"),
    );
}

#[test]
fn reading_2_the_first_line_that_does_not_fit_ends_the_run() {
    let answers = "? 10\n".repeat(LINES);
    prints(
        &format!("{}\nC\n", "\n".repeat(LINES)),
        &format!("{answers}! 7\n"),
    );
}

#[test]
fn reading_3_empty_lines() {
    prints("", "");
    prints("\n", "? 10\n");
    prints("\n\n", "? 10\n? 10\n");
    prints("S", "S 0 0\n");
    prints("S\n", "S 0 0\n");
    prints("S\n\nS", "S 0 0\n? 10\nS 0 0\n");
}

#[test]
fn reading_4_minus_and_leading_zeros() {
    let script = "N -0\nN -0000000000\nN -2147483648\nN 0000000007\n\
                  E 0000000000 0000000002 0000000009\nA 0\nX 0\n";
    let expected = "N 0 0\nN 0 1\nN 0 2\nN 0 3\nE 0 0\nA 0 -2147483648\nX 0 9 - 0\n";
    prints(script, expected);
    all_bad(&[
        b"N 00000000000",
        b"N -00000000000",
        b"N 00000000001",
        b"W 00000000000",
    ]);
}

#[test]
fn reading_4_minus_zero_is_the_weight_zero() {
    prints("N -0\nD 0\n", "N 0 0\nD 0 0 0 0\n");
    prints("N -0000000000\nD 0\n", "N 0 0\nD 0 0 0 0\n");
}

#[test]
fn reading_5_numbers_that_fit() {
    prints("N 2147483647\nN -2147483648\n", "N 0 0\nN 0 1\n");
    all_bad(&[
        b"N 2147483648",
        b"N -2147483649",
        b"N 9999999999",
        b"N -9999999999",
    ]);
    prints(
        "N 1\nE 0 0 4294967295\nX 0\n",
        "N 0 0\nE 0 0\nX 0 4294967295 - 0\n",
    );
    all_bad(&[
        b"E 0 0 4294967296",
        b"W 4294967296",
        b"X 4294967296",
        b"F 0 9999999999",
    ]);
}

#[test]
fn reading_5_4294967295_as_a_node_or_edge_is_refused() {
    prints(
        "D 4294967295\nA 4294967295\nF 4294967295 0\n",
        "D 3\nA 3\nF 3\n",
    );
    prints("E 4294967295 0 1\nU 4294967295 0 1\n", "E 3\nU 3\n");
    prints("X 4294967295\n", "X 4\n");
}

#[test]
fn reading_6_nothing_is_trimmed() {
    all_bad(&[
        b"W 0 ",
        b"W  0",
        b" W 0",
        b"W 0  ",
        b"S ",
        b" S",
        b"E 0  0 1",
        b" ",
    ]);
    all_bad(&[
        b"W 0\r", b"W 0\t", b"W 0\0", b"W\t0", b"\rW 0", b"S\r", b"\r", b"\t", b"\0",
    ]);
    assert_eq!(netrun(b"S\r\nS\n"), b"? 10\nS 0 0\n");
}

#[test]
fn reading_6_signs() {
    all_bad(&[
        b"W -0",
        b"X -1",
        b"E 0 0 -1",
        b"E -0 0 1",
        b"F 0 -0",
        b"U 0 0 -0",
    ]);
    all_bad(&[
        b"N +1", b"N +0", b"W +0", b"N -+1", b"N --1", b"N -", b"N - 1", b"N 1-",
    ]);
}

#[test]
fn reading_6_letters_and_other_bytes() {
    all_bad(&[b"n 1", b"s", b"w 0", b"Q", b"T 0", b"?", b"0", b"!"]);
    all_bad(&[
        b"N \x80",
        b"N 1\xff",
        b"\xc3\xa9",
        b"S\x80",
        b"N 1.5",
        b"N 0x1",
        b"N 1e1",
    ]);
    all_bad(&[b"NN 1", b"N1", b"W0", b"SS", b"N\x001"]);
}

#[test]
fn reading_6_missing_and_extra_numbers() {
    all_bad(&[
        b"N", b"E", b"E 0", b"E 0 0", b"U 0 0", b"F 0", b"X", b"D", b"W", b"G",
    ]);
    all_bad(&[b"M", b"B 0", b"A", b"N ", b"E 0 0 "]);
    all_bad(&[
        b"N 1 1",
        b"E 0 0 1 1",
        b"U 0 0 1 1",
        b"F 0 0 0",
        b"X 0 0",
        b"D 0 0",
    ]);
    all_bad(&[
        b"W 0 0", b"G 0 0", b"M 0 0", b"B 0 0 0", b"A 0 0", b"S 0", b"C 0", b"Z 0",
    ]);
}

#[test]
fn reading_7_a_count_stands_even_when_it_is_0() {
    let script = "N 5\nW 0\nG 0\nM 0\nB 0 0\nD 0\n";
    prints(script, "N 0 0\nW 0 0\nG 0 0\nM 0 0\nB 0 0\nD 0 5 0 0\n");
}

#[test]
fn reading_8_missing_nodes() {
    prints("W 0\nG 0\nM 0\nB 0 0\n", "W 0 0\nG 0 0\nM 0 0\nB 0 0\n");
    prints("F 0 0\nA 0\nD 0\n", "F 3\nA 3\nD 3\n");
    prints("N 1\nE 0 0 1\nB 0 1\nF 0 1\n", "N 0 0\nE 0 0\nB 0 0\nF 5\n");
}

#[test]
fn reading_9_the_moved_row() {
    let build = "N 1\nE 0 0 10\nE 0 0 11\nE 0 0 12\n";
    let built = "N 0 0\nE 0 0\nE 0 1\nE 0 2\n";
    prints(&format!("{build}X 0\n"), &format!("{built}X 0 10 2 4\n"));
    prints(&format!("{build}X 2\n"), &format!("{built}X 0 12 - 0\n"));
    prints(
        "N 1\nN 2\nD 0\nD 0\n",
        "N 0 0\nN 0 1\nD 0 1 0 0\nD 0 2 0 0\n",
    );
}
