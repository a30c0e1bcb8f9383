//! The package's refusals against the table of the repository.

use tak::Refusal;

/// The rows of the table: number, constant of the header, sentence.
fn rows() -> Vec<(u32, String, String)> {
    let path = concat!(env!("CARGO_MANIFEST_DIR"), "/../../docs/refusals.tsv");
    let table = std::fs::read_to_string(path).expect("the table of refusals");
    let rows = table.lines().filter_map(|line| {
        let fields: Vec<&str> = line.split('\t').collect();
        let number = fields[0].parse().ok()?;
        Some((number, fields[1].to_string(), fields[2].to_string()))
    });
    rows.collect()
}

/// `TAK_REFUSED_LINE_COUNT` as `LineCount`.
fn variant(constant: &str) -> String {
    let words = constant
        .strip_prefix("TAK_REFUSED_")
        .expect("a constant of a refusal");
    let capitalized = words
        .split('_')
        .map(|word| word[..1].to_string() + &word[1..].to_lowercase());
    capitalized.collect()
}

#[test]
fn every_refusal_of_the_table() {
    let rows = rows();
    assert!(!rows.is_empty());
    for (number, constant, sentence) in &rows {
        let refusal = Refusal::from_number(*number, 3).expect(constant);
        let name = variant(constant);
        match refusal.line() {
            Some(line) => {
                assert_eq!(line, 3);
                assert_eq!(format!("{refusal:?}"), format!("{name} {{ line: 3 }}"));
                assert_eq!(
                    refusal.to_string(),
                    format!("line 3, counted from 0: {sentence} (refusal {number})")
                );
            }
            None => {
                assert_eq!(format!("{refusal:?}"), name);
                assert_eq!(
                    refusal.to_string(),
                    format!("{sentence} (refusal {number})")
                );
            }
        }
        assert_eq!(refusal.number(), *number);
        assert_eq!(refusal.sentence(), sentence);
    }
}

#[test]
fn no_refusal_beyond_the_table() {
    let numbers: Vec<u32> = rows().iter().map(|row| row.0).collect();
    for number in 0..10_000 {
        let known = Refusal::from_number(number, 0).is_some();
        assert_eq!(known, numbers.contains(&number), "{number}");
    }
}

#[test]
fn a_refusal_is_an_error() {
    let error: Box<dyn std::error::Error> = Box::new(Refusal::Cycles);
    assert!(error.to_string().ends_with("(refusal 17)"));
}
