//! The worked examples of RULES.md (section 16) and the session of CONSOLE.md (section 9), as console
//! lines. Tabs are written as blanks here.

/// Runs lines given with blanks for tabs and answers the output in the same way.
fn run(lines: &[&str]) -> Vec<String> {
    let input: String = lines.iter().map(|l| l.replace(' ', "\t") + "\n").collect();
    raw(input.as_bytes())
        .lines()
        .map(|l| l.replace('\t', " "))
        .collect()
}

fn raw(input: &[u8]) -> String {
    let mut output = Vec::new();
    reference::run(input, &mut output).unwrap();
    String::from_utf8(output).unwrap()
}

/// Pairs of a line and its answer. All lines with an answer that begins with `no` are expected in
/// the closing lines too.
fn talk(pairs: &[(&str, &str)]) {
    let lines: Vec<&str> = pairs.iter().map(|p| p.0).collect();
    let mut expected: Vec<String> = pairs.iter().map(|p| p.1.to_string()).collect();
    let faults: Vec<String> = pairs
        .iter()
        .enumerate()
        .filter_map(|(i, p)| Some(format!("fault {} {}", i + 1, p.1.strip_prefix("no ")?)))
        .collect();
    let end = format!("end {} {}", pairs.len(), faults.len());
    expected.extend(faults);
    expected.push(end);
    assert_eq!(run(&lines), expected);
}

#[test]
fn session() {
    let input =
        "open\t1\t4\t2\t0\t1\nbook\t0\t2\ndrive\t1\t9\ncollect\t1\nbook\t3\t2\nback\t1\nstop\n";
    let output = "ok\nok\t1\nok\t3\tgranted\nok\t1\t0\t2\nno\tboard\t2\t0\nok\nno\tline\t8\t1\n\
                  fault\t5\tboard\t2\t0\nfault\t7\tline\t8\t1\nend\t7\t2\n";
    assert_eq!(raw(input.as_bytes()), output);
}

#[test]
fn a_helping_the_one_in_the_way() {
    talk(&[
        ("open 1 6 3 2 1", "ok"),
        ("book 0 3", "ok 1"),
        ("book 0 3", "ok 2"),
        ("step 1", "ok 1 5 0 1"),
        ("step 2", "ok 1 5 1 1"),
        ("step 2", "ok 1 5 2 1"),
        ("step 2", "ok 1 4 0 0"),
        ("step 2", "ok 2 6 0 0"),
        ("step 2", "ok 2 6 1 0"),
        ("step 2", "ok 2 6 2 0"),
        ("step 2", "ok 2 5 3 1"),
        ("step 2", "ok 2 5 4 1"),
        ("step 2", "ok 2 5 5 1"),
        ("step 2", "ok 2 4 3 0"),
        ("step 2", "no board 6 0"),
    ]);
}

#[test]
fn b_hand_back_during_a_search() {
    talk(&[
        ("open 1 4 3 3 1", "ok"),
        ("book 0 2", "ok 1"),
        ("drive 1 100", "ok 3 granted"),
        ("collect 1", "ok 1 0 2"),
        ("book 0 2", "ok 2"),
        ("step 2", "ok 2 6 0 0"),
        ("step 2", "ok 2 6 1 0"),
        ("step 2", "ok 2 5 2 1"),
        ("back 1", "ok"),
        ("step 2", "ok 2 5 3 1"),
        ("step 2", "ok 2 2 0 0"),
        ("step 2", "ok 2 1 3 1"),
        ("step 2", "ok 2 1 2 1"),
        ("step 2", "ok 1 1 1 1"),
        ("step 2", "ok 1 1 0 1"),
        ("step 2", "ok 2 5 0 1"),
        ("step 2", "ok 2 5 1 1"),
        ("step 2", "ok 2 4 0 0"),
    ]);
}

#[test]
fn c_no_window() {
    talk(&[
        ("open 1 5 3 3 1", "ok"),
        ("book 2 1", "ok 1"),
        ("drive 1 9", "ok 2 granted"),
        ("book 0 3", "ok 2"),
        ("step 2", "ok 2 5 0 1"),
        ("step 2", "ok 2 5 1 1"),
        ("step 2", "ok 2 6 2 0"),
        ("step 2", "ok 2 1 1 1"),
        ("step 2", "ok 2 1 0 1"),
        ("step 2", "ok 2 3 0 0"),
        ("collect 2", "ok 2 none"),
        ("collect 2", "no board 5 0"),
    ]);
}

#[test]
fn d_edge_of_the_board() {
    talk(&[
        ("open 1 4 2 0 1", "ok"),
        ("book 3 2", "no board 2 0"),
        ("book 2 2", "ok 1"),
        ("book 4294967295 4294967295", "no board 2 0"),
        ("book 4294967295 1", "no board 2 0"),
        ("book 0 0", "no board 2 0"),
    ]);
}

#[test]
fn e_all_places_in_use() {
    talk(&[
        ("open 1 4 1 0 1", "ok"),
        ("book 0 1", "ok 1"),
        ("book 0 1", "no board 4 0"),
        ("book 4 1", "no board 2 0"),
        ("drop 1", "ok"),
        ("book 0 1", "ok 2"),
    ]);
}

#[test]
fn f_lead() {
    talk(&[
        ("open 1 2 2 0 1", "ok"),
        ("book 0 1", "ok 1"),
        ("book 1 1", "ok 2"),
        ("step 2", "ok 1 5 0 1"),
        ("open 1 2 2 1 1", "ok"),
        ("book 0 1", "ok 1"),
        ("book 1 1", "ok 2"),
        ("step 2", "ok 2 5 1 1"),
    ]);
}

#[test]
fn g_handing_back_twice() {
    talk(&[
        ("open 1 4 2 0 1", "ok"),
        ("book 1 2", "ok 1"),
        ("drive 1 3", "ok 3 granted"),
        ("back 1", "no board 6 0"),
        ("collect 1", "ok 1 1 2"),
        ("back 1", "ok"),
        ("back 1", "no board 6 0"),
        ("step 1", "ok 1 1 2 1"),
        ("back 1", "no board 6 0"),
        ("step 1", "ok 1 1 1 1"),
        ("back 1", "no board 5 0"),
    ]);
}

#[test]
fn h_lowest_vacant_row() {
    // Rows 2 and 3 are vacant in column 1, and the ticket's left row is 3: lowest picks row 2.
    talk(&[
        ("open 3 2 4 4 1", "ok"),
        ("book 0 2", "ok 1"),
        ("book 0 1", "ok 2"),
        ("book 0 2", "ok 3"),
        ("step 1", "ok 1 5 0 1"),
        ("step 2", "ok 2 5 0 2"),
        ("step 3", "ok 3 5 0 3"),
        ("step 1", "ok 1 5 1 1"),
        ("step 3", "ok 3 5 1 2"),
        ("show 0", "ok 3"),
        ("show 1", "ok 2"),
        ("show 2", "no board 2 0"),
    ]);
}

#[test]
fn a_board_never_opened() {
    talk(&[
        ("show 0", "ok 0"),
        ("show 1", "no board 2 0"),
        ("book 0 2", "no board 2 0"),
        ("book 0 1", "ok 1"),
        ("book 0 1", "no board 4 0"),
        ("drive 1 0", "ok 0 seeking"),
        ("drive 1 1", "ok 1 seeking"),
        ("drop 1", "ok"),
        ("drive 1 0", "ok 0 closing"),
        ("drive 1 9", "ok 1 idle"),
        ("drive 1 9", "no board 5 0"),
        ("open 17 1 1 0 1", "no board 1 0"),
        ("open 1 257 1 0 1", "no board 1 0"),
        ("open 1 1 65 0 1", "no board 1 0"),
        ("open 1 1 1 65 1", "no board 1 0"),
        ("open 1 1 1 0 1000000001", "no board 1 0"),
        ("book 0 1", "ok 2"),
        ("open 16 256 64 64 1000000000", "ok"),
        ("book 0 1", "ok 1000000000"),
    ]);
}

#[test]
fn a_drive_stops_when_the_journal_is_full() {
    // With lead 0 every step names the last booking and works on the lowest one.
    let mut lines = vec!["open 16 256 64 0 1"];
    lines.extend(["book 0 64"; 64]);
    lines.extend(["drive 64 4294967295"; 4]);
    let output = run(&lines);
    // Sixteen bookings fit side by side. Each takes 64 marks and a grant, after one wall for each
    // column that earlier ones have filled: 16 × (65 + 129 + 193 + 257) = 2 × 4096 + 2112 steps.
    assert_eq!(
        output[65..69],
        [
            "ok 4096 seeking",
            "ok 4096 seeking",
            "ok 2112 granted",
            "no board 6 0"
        ]
    );
}

#[test]
fn lines_that_are_none() {
    let no = "no\tline\t11\t0\n";
    assert_eq!(raw(b""), "end\t0\t0\n");
    assert_eq!(
        raw(b"\n"),
        "no\tline\t8\t1\nfault\t1\tline\t8\t1\nend\t1\t1\n"
    );
    assert_eq!(raw(b"x"), format!("{no}fault\t1\tline\t11\t0\nend\t1\t1\n"));
    for (length, answer) in [(80, "no\tline\t8\t1\n"), (81, no), (82, no), (200_000, no)] {
        let mut input = vec![b'x'; length - 1];
        input.push(b'\n');
        input.extend(b"show\t0\n");
        let fault = answer.replace("no\t", "fault\t1\t");
        assert_eq!(raw(&input), format!("{answer}ok\t0\n{fault}end\t2\t1\n"));
        input.truncate(length - 1);
        let fault = no.replace("no\t", "fault\t1\t");
        assert_eq!(raw(&input), format!("{no}{fault}end\t1\t1\n"));
    }
}

/// However the input is cut into reads, the output is the same.
#[test]
fn reads_of_any_size() {
    struct Slow<'a>(&'a [u8], usize);
    impl std::io::Read for Slow<'_> {
        fn read(&mut self, to: &mut [u8]) -> std::io::Result<usize> {
            let take = self.1.min(self.0.len()).min(to.len());
            to[..take].copy_from_slice(&self.0[..take]);
            self.0 = &self.0[take..];
            Ok(take)
        }
    }
    let mut input = b"open\t2\t9\t3\t1\t1\nbook\t0\t4\n".to_vec();
    for length in [0, 1, 78, 79, 80, 81, 82, 159, 160, 161, 300] {
        input.extend(vec![b'y'; length]);
        input.extend(b"\nstep\t1\n");
    }
    input.extend(vec![b'z'; 90]);
    let whole = raw(&input);
    for size in 1..200 {
        let mut output = Vec::new();
        reference::run(Slow(&input, size), &mut output).unwrap();
        assert_eq!(String::from_utf8(output).unwrap(), whole, "reads of {size}");
    }
}

/// Only the first 256 faults are listed at the end, and all are counted.
#[test]
fn kept_faults() {
    let output = run(&["stop"; 300]);
    assert_eq!(output.len(), 300 + 256 + 1);
    assert_eq!(output[300 + 255], "fault 256 line 8 1");
    assert_eq!(output[300 + 256], "end 300 300");
}
