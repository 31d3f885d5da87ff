//! The two programs. Reading 10: standard input may come in pieces.

use std::io::Write;
use std::process::{Command, Stdio};
use std::{env, fs};

use oracle::generate::script;

#[test]
fn reading_10_the_oracle_reads_its_input_to_the_end() {
    let mut program = Command::new(env!("CARGO_BIN_EXE_oracle"))
        .stdin(Stdio::piped())
        .stdout(Stdio::piped())
        .spawn()
        .unwrap();
    let mut input = program.stdin.take().unwrap();
    for piece in ["N", " 5\nN -", "3\nE 0 1 10", "\nW 1\n"] {
        input.write_all(piece.as_bytes()).unwrap();
        input.flush().unwrap();
    }
    drop(input);
    let output = program.wait_with_output().unwrap();
    assert_eq!(output.stdout, b"N 0 0\nN 0 1\nE 0 0\nW 0 1 0\n");
}

#[test]
fn generate_writes_one_script_or_a_directory_of_them() {
    let generate = env!("CARGO_BIN_EXE_generate");
    let output = Command::new(generate).args(["7", "2", "-"]).output();
    assert_eq!(output.unwrap().stdout, script(7, 2).script);

    let place = env::temp_dir().join(format!("oracle-generate-{}", std::process::id()));
    let status = Command::new(generate).args(["7", "3"]).arg(&place).status();
    assert!(status.unwrap().success());
    for index in 0..3 {
        let file = place.join(format!("{index:07}.script"));
        assert_eq!(fs::read(file).unwrap(), script(7, index).script);
    }
    assert_eq!(fs::read_dir(&place).unwrap().count(), 3);
    fs::remove_dir_all(place).unwrap();
}
