//! The sample sheet by hand, each rule's words, each fault's words.

use model::sheet::{OLD_SAMPLE, PUMP, SAMPLE};
use sheet::check::check;
use sheet::convert::converted;
use sheet::layout::Sheet;
use sheet::{diff, make, show};

const TEXT: &str = "edition 2
rules 0
serial 00c501020304
mask 07b0
programming off
verify on
address 1.1.5
key 0 11111111
key 1 22222222
key 2 ffffffff  # public: it opens level 2 to all

region 0100h r3 w2
    a0 a1 a2 a3

property 1/51 type 4 writable size 2 maximum 2 count 1 r3 w1
    1000

group 1/0/1 code 1 read write
    00

end
";

const PUMP_TEXT: &str = "edition 2
rules 0
serial 00c501020305
mask 07b0
programming off
verify on
address 1.1.6
key 0 11111111
key 1 22222222
key 2 ffffffff  # public: it opens level 2 to all

region 0100h r3 w2
    a0 a1 a2 a3

property 1/51 type 4 writable size 2 maximum 2 count 1 r3 w1
    1000

group 1/0/1 code 1 read write
    00

user 0100h r3 w1
    b0 b1 b2 b3

user 0104h r2 w0
    c0 c1 c2 c3 c4 c5 c6 c7 c8 c9 ca cb

end
";

#[test]
fn by_hand() {
    assert_eq!(show::text(&Sheet::read(&SAMPLE).unwrap(), true), TEXT);
    assert_eq!(make::bytes(TEXT).unwrap(), SAMPLE);
    let document = include_str!("../../../docs/SHEET.md");
    let indented: Vec<String> = TEXT
        .lines()
        .map(|l| if l.is_empty() { String::new() } else { format!("    {l}") })
        .collect();
    assert!(document.contains(&indented.join("\n")), "docs/SHEET.md has another text of it");
    assert_eq!(show::text(&Sheet::read(&PUMP).unwrap(), true), PUMP_TEXT);
    assert_eq!(make::bytes(PUMP_TEXT).unwrap(), PUMP);
    let (mut later, text) = (PUMP, PUMP_TEXT.replace("rules 0", "rules 1"));
    later[30] = 1;
    assert_eq!(show::text(&Sheet::read(&later).unwrap(), true), text);
    assert_eq!(make::bytes(&text).unwrap(), later);
}

/// Other ways to write the same.
#[test]
fn free_forms() {
    let other = "# a sheet\r\n\r\nkey 2 FFFFFFFF\nverify on # both\nedition 2\nprogramming off\n\tmask 07B0\n
        key 1 22222222\nserial 00C501020304\naddress 1.1.5\nkey 0 11111111
        group 1/0/1 write read code 1\n00\nregion 256 w2 r3\na0 A1\na2 a3
        property 1/33h r3 w1 count 1 maximum 2 writable size 2 type 04h\n3e8h 0\n\tend # of it";
    assert_eq!(make::bytes(other).unwrap(), SAMPLE);
    assert_eq!(make::bytes(&TEXT.replace("edition 2\nrules 0\n", "")).unwrap(), SAMPLE);
    assert_eq!(make::bytes(&PUMP_TEXT.replace("rules 0\n", "")).unwrap(), PUMP);
}

fn told(changes: &[(usize, u8)]) -> String {
    told_of(&SAMPLE, changes)
}

fn told_of(sheet: &[u8], changes: &[(usize, u8)]) -> String {
    let mut bytes = sheet.to_vec();
    for &(at, byte) in changes {
        bytes[at] = byte;
    }
    check(&bytes).unwrap_err().to_string()
}

#[test]
fn rules() {
    assert_eq!(check(&SAMPLE), Ok(()));
    assert_eq!(check(&[]).unwrap_err().to_string(), "S1: the sheet has 0 bytes, fewer than 32");
    assert_eq!(
        check(&[1; 16_385]).unwrap_err().to_string(),
        "S1: the sheet has more than 16384 bytes"
    );
    assert_eq!(told(&[(0, 3)]), "S2: edition 3, not 1 or 2");
    assert_eq!(told(&[(1, 17)]), "S3: 17 regions, more than 16");
    assert_eq!(told(&[(3, 65)]), "S3: 65 group objects, more than 64");
    assert_eq!(told(&[(5, 70)]), "S4: the head states 70 bytes, the sheet has 69");
    assert_eq!(told(&[(3, 3)]), "S4: head and entries take 76 bytes, the sheet has 69");
    assert_eq!(told(&[(30, 9)]), "S5: rules 9, not 0 or 1");
    assert_eq!(told(&[(0, 1), (30, 9)]), "S5: byte 30 of the head is 9, not 0");
    assert_eq!(told(&[(0, 1)]), "old: convert it");
    assert_eq!(told(&[(14, 4)]), "S5: flags 4, of which only 1 and 2 may be set");
    assert_eq!(told(&[(35, 0)]), "S6: region 0100h, length 0");
    assert_eq!(
        told(&[(32, 255), (33, 255)]),
        "S6: region ffffh, length 4 runs past the last address, ffffh"
    );
    assert_eq!(told(&[(38, 0x42)]), "S6: region 0100h, read level 4 above 3");
    assert_eq!(told(&[(39, 1)]), "S6: region 0100h, byte 7 of the entry is 1, not 0");
    assert_eq!(told(&[(41, 0)]), "S7: property 1/0, id 0");
    assert_eq!(told(&[(42, 0xC4)]), "S7: property 1/51, type c4h, of which bit 6 must be 0");
    assert_eq!(told(&[(43, 11)]), "S7: property 1/51, size 11, not 1 to 10");
    assert_eq!(told(&[(45, 0)]), "S7: property 1/51, maximum 0, not 1 to 4095");
    assert_eq!(told(&[(47, 3)]), "S7: property 1/51, count 3 above maximum 2");
    assert_eq!(told(&[(50, 0x35)]), "S7: property 1/51, write level 5 above 3");
    assert_eq!(told(&[(52, 0), (53, 0)]), "S8: group object 0/0/0, address 0");
    assert_eq!(told(&[(54, 15)]), "S8: group object 1/0/1, length code 15 above 14");
    assert_eq!(told(&[(55, 8)]), "S8: group object 1/0/1, flags 8 above 7");
    assert_eq!(told(&[(59, 7)]), "S8: group object 1/0/1, byte 7 of the entry is 7, not 0");
    assert_eq!(
        told(&[(49, 65)]),
        "S9: property 1/51, its body starts at 65, and the one before ends at 64"
    );
    assert_eq!(told(&[(54, 2)]), "S9: the last body ends at 70, the sheet at 69");
    assert_eq!(told(&[(54, 0), (68, 64)]), "S9: group object 1/0/1, six-bit value 64 above 63");
}

#[test]
fn rules_of_edition_2() {
    let told = |changes: &[(usize, u8)]| told_of(&PUMP, changes);
    assert_eq!(check(&PUMP), Ok(()));
    assert_eq!(told(&[(0, 0)]), "S2: edition 0, not 1 or 2");
    assert_eq!(told(&[(15, 17)]), "S3: 17 user regions, more than 16");
    assert_eq!(told(&[(15, 16)]), "S4: head and entries take 188 bytes, the sheet has 101");
    assert_eq!(told(&[(0, 1)]), "S5: byte 15 of the head is 2, not 0");
    assert_eq!(told(&[(30, 2)]), "S5: rules 2, not 0 or 1");
    assert_eq!(told(&[(30, 255), (63, 0)]), "S5: rules 255, not 0 or 1");
    assert_eq!(told(&[(30, 1), (31, 1)]), "S5: byte 31 of the head is 1, not 0");
    assert_eq!(told(&[(15, 0), (30, 1), (0, 1)]), "S5: byte 30 of the head is 1, not 0");
    assert_eq!(told(&[(63, 0)]), "S6: user region 0100h, length 0");
    assert_eq!(told(&[(66, 0x51)]), "S6: user region 0100h, read level 5 above 3");
    assert_eq!(
        told(&[(69, 3), (41, 0)]),
        "S6: user region 0103h, first address below the end of the region before, 0104h"
    );
    assert_eq!(
        told(&[(65, 0x56)]),
        "S9: user region 0100h, its body starts at 86, and the one before ends at 85"
    );
    assert_eq!(told(&[(71, 11)]), "S9: the last body ends at 100, the sheet at 101");
}

/// The second of two entries, by their order.
#[test]
fn order() {
    let twice =
        |from: &str, to: &str| make::bytes(&TEXT.replace(from, to)).unwrap_err().to_string();
    assert_eq!(
        twice("\nproperty", "\nregion 0102h r3 w3\n 00\nproperty"),
        "line 15: S6: region 0102h, first address below the end of the region before, 0104h"
    );
    assert_eq!(
        twice("\ngroup", "\nproperty 1/51 type 1 size 1 maximum 1 count 0 r3 w3\ngroup"),
        "line 18: S7: property 1/51, object and id not above the property before, 1/51"
    );
    assert_eq!(
        twice("    00\n", "    00\ngroup 1/0/0 code 1\n 00"),
        "line 20: S8: group object 1/0/0, address not above the group object before, 1/0/1"
    );
}

#[test]
fn faults() {
    let cases = [
        ("edition 2", "edition 3", "line 1: edition is \"3\", not 1 to 2"),
        ("edition 2", "edition 1", "line 1: edition 1 is old: write 2"),
        ("serial 00c501020304\n", "", "line 20: serial is missing"),
        ("mask 07b0", "mask 7b0", "line 4: mask is not 4 hex digits: \"7b0\""),
        ("mask 07b0", "mask", "line 4: mask has no value"),
        ("verify on", "verify yes", "line 6: verify is on or off: \"yes\""),
        ("verify on", "verify on\nverify on", "line 7: verify is given twice"),
        ("1.1.5", "1.16.5", "line 7: address is \"16\", not 0 to 15"),
        ("1.1.5", "1.1", "line 7: address has not 3 parts with . between them: \"1.1\""),
        ("key 2", "key 3", "line 10: level of the key is \"3\", not 0 to 2"),
        ("key 2 ffffffff", "", "line 21: key 2 is missing"),
        ("mask", "rules 1\nmask", "line 4: rules is given twice"),
        ("key 2", "keys 2", "line 10: \"keys\" is no name of a field, and no entry has begun"),
        (
            "0100h r3",
            "10000h r3",
            "line 12: region 10000h, first address is \"10000h\", not 0 to 65535",
        ),
        ("r3 w2", "r3", "line 12: region 0100h, write level is missing: w0 to w3"),
        ("r3 w2", "r4 w2", "line 12: region 0100h, read level is \"4\", not 0 to 3"),
        ("a1 a2", "a1 2", "line 13: byte 2 of the region is not 2 hex digits: \"2\""),
        ("    a0 a1 a2 a3\n", "", "line 12: S6: region 0100h, length 0"),
        ("type 4 ", "", "line 15: property 1/51, type is missing"),
        ("type 4 ", "type 64 ", "line 15: property 1/51, type is \"64\", not 0 to 63"),
        ("size 2", "size 11", "line 15: property 1/51, size is \"11\", not 1 to 10"),
        ("count 1", "count 3", "line 15: S7: property 1/51, count 3 above maximum 2"),
        ("w1", "w1 open", "line 15: property 1/51, \"open\" is no field of it, or one too many"),
        ("1000", "65536", "line 16: property 1/51, element 1 is \"65536\", not 0 to 65535"),
        ("1000", "1 2 3", "line 16: property 1/51, element 3 is one too many: maximum 2"),
        ("1000", "x", "line 16: property 1/51, element 1 is no number: \"x\""),
        (
            "code 1",
            "code 2",
            "line 18: group object 1/0/1, its body has 1 bytes, and code 2 wants 2",
        ),
        ("code 1", "code 15", "line 18: group 1/0/1, code is \"15\", not 0 to 14"),
        ("1/0/1 code", "0/0/0 code", "line 18: S8: group object 0/0/0, address 0"),
        ("\nend", "\nend\nend", "line 22: \"end\" stands behind the end"),
        ("\nend", "\nend of it", "line 21: end stands alone, and \"of\" is more"),
        (
            "1/51",
            "\u{1b}[31m1/51\u{202e}23456789012345678901",
            "line 15: property ?[31m1/51?23456789012345.., object/id is no number: \"?[31m1\"",
        ),
    ];
    for (from, to, what) in cases {
        assert!(TEXT.contains(from));
        let fault = make::bytes(&TEXT.replacen(from, to, 1)).unwrap_err();
        assert_eq!(fault.to_string(), what);
    }
    let cases = [
        ("    b0 b1 b2 b3\n", "", "line 21: S6: user region 0100h, length 0"),
        ("r2 w0", "r2", "line 24: user 0104h, write level is missing: w0 to w3"),
        ("b1 b2", "b1 2", "line 22: byte 2 of the user region is not 2 hex digits: \"2\""),
        ("user 0104h", "user x", "line 24: user x, first address is no number: \"x\""),
        ("user 0104h", "user", "line 24: user r2, first address is no number: \"r2\""),
        ("rules 0", "rules 2", "line 2: rules is \"2\", not 0 to 1"),
        ("rules 0", "rules later", "line 2: rules is no number: \"later\""),
        ("rules 0", "rules 1\nrules 1", "line 3: rules is given twice"),
    ];
    for (from, to, what) in cases {
        assert!(PUMP_TEXT.contains(from));
        let fault = make::bytes(&PUMP_TEXT.replacen(from, to, 1)).unwrap_err();
        assert_eq!(fault.to_string(), what);
    }
    let missing = "end is missing as the last line: the text may have been cut off";
    assert_eq!(make::bytes("").unwrap_err().to_string(), format!("line 1: {missing}"));
}

/// A text that was cut off, wherever, is refused.
#[test]
fn cut_off() {
    for text in [TEXT, PUMP_TEXT] {
        assert!(make::bytes(text.trim_end()).is_ok());
        for upto in 0..text.trim_end().len() {
            assert!(make::bytes(&text[..upto]).is_err(), "cut off behind {:?}", &text[..upto]);
        }
    }
}

/// Too much for a sheet, in number or in length.
#[test]
fn too_much() {
    let regions: String = (0..17).map(|i| format!("region {i} r3 w3\n00\n")).collect();
    let fault =
        make::bytes(&TEXT.replace("region 0100h r3 w2\n    a0 a1 a2 a3\n", &regions)).unwrap_err();
    assert_eq!(fault.to_string(), "line 44: S3: more than 16 regions");
    let users: String = (0..17).map(|i| format!("user {i} r3 w3\n00\n")).collect();
    let text = TEXT.replace("end\n", &(users + "end\n"));
    let fault = make::bytes(&text).unwrap_err();
    assert_eq!(fault.to_string(), "line 53: S3: more than 16 user regions");
    let fault = make::bytes(&TEXT.replace("size 2 maximum 2", "size 10 maximum 4095")).unwrap_err();
    assert_eq!(fault.to_string(), "line 21: S1: the sheet has more than 16384 bytes");
}

#[test]
fn differences() {
    let cases = [
        ("1000", "1250", "property 1/51 element 1: 1000 → 1250"),
        ("count 1", "count 2", "property 1/51 count: 1 → 2"),
        ("writable ", "", "property 1/51: writable → not writable"),
        ("w1", "w3", "property 1/51 write level: 1 → 3"),
        ("type 4", "type 5", "property 1/51 type: 4 → 5"),
        ("22222222", "22222223", "key of level 1 changed"),
        ("a0 a1 a2 a3", "55 a1 a2 a3", "memory 0100h: a0 → 55"),
        ("a0 a1 a2 a3", "a0 01 02 a3", "memory 0101h: a1 a2 → 01 02"),
        ("a0 a1 a2 a3", "a0 a1 a2", "region 0100h length: 4 → 3"),
        ("r3 w2", "r3 w3", "region 0100h write level: 2 → 3"),
        ("    00\n", "    55\n", "group object 1/0/1: 00 → 55"),
        ("read write", "read", "group object 1/0/1 flags: read write → read"),
        ("code 1", "code 0", "group object 1/0/1 length code: 1 → 0"),
        ("serial 00", "serial 01", "serial number: 00c501020304 → 01c501020304"),
        ("mask 07b0", "mask 07b1", "mask version: 07b0 → 07b1"),
        ("programming off", "programming on", "programming mode: off → on"),
        ("verify on", "verify off", "verify: on → off"),
        ("1.1.5", "1.1.6", "individual address: 1.1.5 → 1.1.6"),
        ("group 1/0/1 code 1 read write\n    00\n", "", "group object 1/0/1 is gone"),
    ];
    let old = Sheet::read(&SAMPLE).unwrap();
    for (from, to, line) in cases {
        let new = Sheet::read(&make::bytes(&TEXT.replacen(from, to, 1)).unwrap()).unwrap();
        assert_eq!(diff::lines(&old, &new), [line]);
        assert_eq!(diff::lines(&new, &new), [""; 0]);
    }
    let cases = [
        ("b0 b1", "b0 55", "user memory 0101h: b1 → 55"),
        ("a0 a1", "a0 55", "memory 0101h: a1 → 55"),
        ("c9 ca cb", "c9 ca", "user region 0104h length: 12 → 11"),
        ("r2 w0", "r3 w0", "user region 0104h read level: 2 → 3"),
        (
            "cb\n",
            "cb\nuser 0200h r3 w0\n00\n",
            "user region 0200h is new: length 1, read level 3, write level 0",
        ),
        ("rules 0", "rules 1", "rules: 0 → 1"),
    ];
    let old = Sheet::read(&PUMP).unwrap();
    for (from, to, line) in cases {
        let new = Sheet::read(&make::bytes(&PUMP_TEXT.replacen(from, to, 1)).unwrap()).unwrap();
        assert_eq!(diff::lines(&old, &new), [line]);
    }
    let (first, second) = (Sheet::read(&OLD_SAMPLE).unwrap(), Sheet::read(&SAMPLE).unwrap());
    assert_eq!(diff::lines(&first, &second), ["edition: 1 → 2"]);
}

/// An old sheet is shown, and converted; no other is.
#[test]
fn old() {
    let text = TEXT.replace("edition 2\nrules 0\n", "edition 1  # old: convert it\n");
    assert_eq!(show::text(&Sheet::read(&OLD_SAMPLE).unwrap(), true), text);
    assert_eq!(Sheet::read(&OLD_SAMPLE).unwrap().bytes(), OLD_SAMPLE);
    assert_eq!(make::bytes(&text).unwrap_err().to_string(), "line 1: edition 1 is old: write 2");
    assert_eq!(make::bytes(&text.replace("edition 1", "edition 2")).unwrap(), SAMPLE);
    assert_eq!(converted(&OLD_SAMPLE).unwrap(), SAMPLE);
    let none = "OK, and not old: nothing is converted";
    assert_eq!([converted(&SAMPLE), converted(&PUMP)], [Err(none.into()), Err(none.into())]);
    let mut bad = OLD_SAMPLE;
    bad[47] = 3;
    let broken = "S7: property 1/51, count 3 above maximum 2".to_string();
    assert_eq!(converted(&bad), Err(broken));
    let empty = "S1: the sheet has 0 bytes, fewer than 32".to_string();
    assert_eq!(converted(&[]), Err(empty));
}

/// What is new, with its levels and values.
#[test]
fn new_entries() {
    let new = "region 0200h r2 w0\n 00 55 56 00 57\n
        property 1/52 type 4 size 2 maximum 3 count 2 r3 w0\n 7 0 9\n
        property 1/53 type 17 writable size 5 maximum 1 count 0 r0 w1\n
        group 1/0/2 code 2 read\n 00 2a\nend\n";
    let new = Sheet::read(&make::bytes(&TEXT.replace("end\n", new)).unwrap()).unwrap();
    assert_eq!(
        diff::lines(&Sheet::read(&SAMPLE).unwrap(), &new),
        [
            "region 0200h is new: length 5, read level 2, write level 0",
            "memory 0201h: new, 55 56",
            "memory 0204h: new, 57",
            "property 1/52 is new: type 4, not writable, size 2, maximum 3, count 2, read level 3, write level 0",
            "property 1/52 element 1: new, 7",
            "property 1/52 element 3: new, 9",
            "property 1/53 is new: type 17, writable, size 5, maximum 1, count 0, read level 0, write level 1",
            "group object 1/0/2 is new: length code 2, flags read, value 00 2a",
        ]
    );
}
