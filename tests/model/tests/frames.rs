//! The frames of tests/vectors, and that what reads is written again to the same bytes.

use model::frame;

#[test]
fn vectors() {
    let text = include_str!("../../vectors/frame.tsv");
    let rows: Vec<&str> = text.lines().filter(|l| !l.starts_with('#')).collect();
    assert!(rows.len() > 60);
    for row in rows {
        let [what, command, answer] = row.split('\t').collect::<Vec<_>>()[..] else {
            panic!("{row}")
        };
        assert_eq!(frame::answer(command), answer, "{what}");
        if let Some(fields) = answer.strip_prefix("0 code=") {
            let (fields, _) = fields.rsplit_once(" tpdu=").unwrap();
            let tpdu = answer.rsplit_once(" tpdu=").unwrap().1.split(' ').next().unwrap();
            let bytes = command.rsplit(' ').next().unwrap();
            let again =
                format!("frame write code={fields} apdu={tpdu} {}", "00".repeat(bytes.len() / 2));
            assert_eq!(frame::answer(&again), format!("0 {} {bytes}", bytes.len() / 2), "{what}");
        }
    }
}
