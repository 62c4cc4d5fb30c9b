//! The mornings have the lines asked for, can be made again, and really do things.

use mornings::{Asked, Shape};

fn morning(shape: Shape, seed: u64, lines: u64) -> Vec<u8> {
    let mut text = Vec::new();
    mornings::write(shape, seed, lines, Asked::default(), &mut text).unwrap();
    text
}

fn answers(input: &[u8]) -> Vec<String> {
    let mut output = Vec::new();
    reference::run(input, &mut output).unwrap();
    let output = String::from_utf8(output).unwrap();
    output.lines().map(str::to_string).collect()
}

#[test]
fn the_same_seed_gives_the_same_morning() {
    for shape in Shape::ALL {
        assert_eq!(morning(shape, 3, 500), morning(shape, 3, 500));
        assert_ne!(morning(shape, 3, 500), morning(shape, 4, 500));
    }
}

#[test]
fn mornings_do_things() {
    let mut actions = [0; 7];
    let mut none = 0;
    for shape in Shape::ALL {
        let lines = 20_000;
        let output = answers(&morning(shape, 1, lines));
        let end: Vec<u64> = output
            .last()
            .unwrap()
            .split('\t')
            .skip(1)
            .map(|figure| figure.parse().unwrap())
            .collect();
        assert_eq!(end[0], lines, "{shape:?}");
        let refused = end[1] * 100 / lines;
        if shape == Shape::Bad {
            assert!(
                (40..80).contains(&refused),
                "{shape:?}: {refused} percent refused"
            );
        } else {
            assert!(
                (1..10).contains(&refused),
                "{shape:?}: {refused} percent refused"
            );
        }
        for line in &output {
            let fields: Vec<&str> = line.split('\t').collect();
            if fields[0] == "ok" && fields.len() == 5 {
                actions[fields[2].parse::<usize>().unwrap()] += 1;
            }
            if fields.last() == Some(&"none") {
                none += 1;
            }
        }
    }
    assert!(actions[1..].iter().all(|&count| count > 10), "{actions:?}");
    assert!(none > 10, "{none}");
}
