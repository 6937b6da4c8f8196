//! What the program `expected` prints, on cases of the papers.

use compare::generator;
use std::io::Write;
use std::process::{Command, Stdio};

fn expected(words: &str, input: &[u8]) -> String {
    let mut child = Command::new(env!("CARGO_BIN_EXE_expected"))
        .args(words.split(' '))
        .stdin(Stdio::piped())
        .stdout(Stdio::piped())
        .spawn()
        .unwrap();
    child.stdin.take().unwrap().write_all(input).unwrap();
    let output = child.wait_with_output().unwrap();
    assert!(output.status.success(), "{words}");
    String::from_utf8_lossy(&output.stdout).to_string()
}

#[test]
fn cases() {
    let file = b"P6\n2 1\n255\n\x0a\x0a\x3c\x0a\x0a\x3c";
    assert_eq!(expected("report -", file).lines().nth(2), Some("YCoCg-R 0,0,0,0 384 2 192 0"));
    assert_eq!(expected("header -", file), "2 1 8\n");
    assert_eq!(expected("header -", b"P6"), "refused 1\n");
    assert_eq!(expected("inverse 1 1 8 2 0,0 10 -190 140", b""), "10\n200\n60\n");
    assert_eq!(expected("inverse 1 1 8 2 0,0 0 0 255", b""), "refused 12\n");
    assert_eq!(expected("logarithms 1 3", b""), "0\n64\n101\n");
    // The upper halves of the first two numbers are 15470 and 18256; the digest is 110 * 31 + 80.
    assert_eq!(expected("picture 2 1 8 0", b"").lines().next(), Some("110 80"));
    assert_eq!(expected("forward 2 1 8 2 12,12 0", b"").lines().next(), Some("110 80"));
    assert_eq!(expected("digest 2 1 8 2 0,0 0", b"").lines().next(), Some("3490"));
    assert_eq!(expected("estimate 1 1 8 4 0,0 0", b""), "refused 6\n");
    assert_eq!(expected("search 2 1 8 0 5 0", b""), "refused 10\n");
    assert_eq!(expected("pixmap 1 1 2 0", b"").len(), "P6\n1 1\n3\n".len() + 3);
    // 15470, 18256 and 53708 modulo 512 are 110, 256 + 80 and 256 + 204.
    assert!(expected("pixmap 1 1 9 0", b"").starts_with("P6\n1 1\n511\n\x00\x6e\x01\x50\x01"));
}

/// A grey row with residuals 0 0 0 1, which every transform keeps in one plane; the two others are 0.
#[test]
fn estimate_209() {
    let report = expected("report -", b"P6 4 1 255 \0\0\0\0\0\0\0\0\0\x01\x01\x01");
    let filters = ["RCT 0,0,0,0", "YCoCg-R 0,0,0,0", "RDgDb 0,0", "LDgEb 0,0,0"];
    let lines = filters.map(|line| format!("{line} 209 4 52 1\n"));
    assert_eq!(report, format!("transform filters estimate samples each rest\n{}", lines.concat()));
}

/// The four last fields of every line: N times `each` and the rest are the estimate, and the rest is below N.
#[test]
fn each_and_rest() {
    for (width, height, depth, seed) in [(1, 1, 8, 1), (3, 1, 2, 2), (7, 5, 8, 3), (2, 30, 4, 4), (20, 13, 7, 5)] {
        let picture = generator::picture(width, height, [depth; 3], seed);
        let report = expected("report -", &generator::pixmap(width, height, depth, &picture));
        assert_eq!(report.lines().count(), 5);
        for line in report.lines().skip(1) {
            let [_, _, numbers @ ..] = &line.split(' ').collect::<Vec<_>>()[..] else { panic!("{line}") };
            let numbers: Vec<u32> = numbers.iter().map(|number| number.parse().unwrap()).collect();
            let [estimate, samples, each, rest] = numbers[..] else { panic!("{line}") };
            assert_eq!(samples, width * height, "{line}");
            assert!(samples * each + rest == estimate && rest < samples, "{line}");
        }
    }
}
