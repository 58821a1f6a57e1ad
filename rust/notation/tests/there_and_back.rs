//! Notation to bytes and back, for random formulas, and the errors that name a record.

use reference::record::Record;

/// The formula and the value texts that `show` prints.
fn shown(bytes: &[u8]) -> (String, Vec<String>) {
    let text = notation::show(bytes).expect("bytes that have a notation");
    let mut lines = text.lines().map(str::to_string);
    (lines.next().expect("a line for the formula"), lines.collect())
}

#[test]
fn random_jobs_go_there_and_back() {
    for seed in 0..3_000 {
        let (records, texts) = generate::well_typed(seed);
        let formula = Record::write_all(&records);
        let (notation, no_texts) = shown(&formula);
        assert!(no_texts.is_empty());
        assert_eq!(notation::formula(&notation), Ok(formula.clone()), "seed {seed}");

        let values = texts.iter().map(|text| Record::Value { text: text.clone() });
        let job = [formula, Record::write_all(&values.collect::<Vec<_>>())].concat();
        let (notation, shown_texts) = shown(&job);
        assert_eq!(notation::job(&notation, &shown_texts), Ok(job), "seed {seed}");
    }
}

#[test]
fn mangled_jobs_that_have_a_notation_come_back_too() {
    let mut with_notation = 0;
    for seed in 0..3_000 {
        let job = generate::job_case(seed).job;
        let Ok(text) = notation::show(&job) else { continue };
        let lines: Vec<&str> = text.lines().collect();
        let bytes = match lines[1..] {
            [] => notation::formula(lines[0]),
            _ => notation::job(lines[0], &lines[1..]),
        };
        assert_eq!(bytes, Ok(job), "seed {seed}");
        with_notation += 1;
    }
    assert!(with_notation > 1_500, "{with_notation}");
}

#[test]
fn the_example_of_document_01_has_its_bytes() {
    let job = notation::job("IN 5 1, IN 6 0, EA 7 5 1 6, PL 7 6", &["{3,1}", "4"]).unwrap();
    assert_eq!(job, b"IN\x05\x01IN\x06\x00EA\x07\x05\x01\x06PL\x07\x06VA\x05\x00{3,1}VA\x01\x004");
    assert_eq!(notation::show(&job).unwrap(), "IN 5 1, IN 6 0, EA 7 5 1 6, PL 7 6\n{3,1}\n4\n");
}

#[test]
fn the_records_of_request_1_have_their_bytes() {
    let notation =
        "IB 1 2, IN 2 0, LT 3, LE 2 2, LT 4, EQ 2 2, LT 5, NO 3, LT 6, KB 1, GU 5 2 1 2, KB 0";
    let job = notation::job(notation, &["{{T},{}}", "-4"]).unwrap();
    let formula = b"IB\x01\x02IN\x02\x00LT\x03LE\x02\x02LT\x04EQ\x02\x02LT\x05NO\x03LT\x06KB\x01\
        GU\x05\x02\x01\x02KB\x00";
    assert_eq!(job, [formula.as_slice(), b"VA\x08\x00{{T},{}}VA\x02\x00-4"].concat());
    assert_eq!(notation::show(&job).unwrap(), format!("{notation}\n{{{{T}},{{}}}}\n-4\n"));
    let error = notation::show(b"KB\x02").unwrap_err().to_string();
    assert_eq!(error, "record 1 (at byte 0): `KB` with a byte that is neither 0 nor 1");
}

#[test]
fn a_byte_that_is_not_printable_is_written_in_hexadecimal() {
    let job = b"IN\x00\x00VR\x00VA\x04\x001\xff\n\\";
    assert_eq!(notation::show(job).unwrap(), "IN 0 0, VR 0\n1\\xff\\x0a\\x5c\n");
    assert_eq!(notation::job("IN 0 0, VR 0", &["1\\xff\\x0a\\x5c"]).unwrap(), job);
    assert!(notation::job("IN 0 0, VR 0", &["\\n"]).is_err());
}

#[test]
fn errors_name_the_record_and_what_is_wrong() {
    let cases = [
        ("IN 5 1, XX 4", "record 2 (`XX 4`): unknown mark `XX`"),
        ("IN 5, VR 5", "record 1 (`IN 5`): the depth is missing"),
        ("VR 0 1", "record 1 (`VR 0 1`): a field too many, `1`"),
        ("IN 64 0, VR 0", "record 1 (`IN 64 0`): the input's variable is 64; it runs from 0 to 63"),
        ("IN 0 9, VR 0", "record 1 (`IN 0 9`): the depth is 9; it runs from 0 to 8"),
        ("KN 2147483648", "record 1 (`KN 2147483648`): the constant is 2147483648; it runs from"),
        ("KN two", "record 1 (`KN two`): the constant is `two`, which is no number"),
        ("EA 7 5 2 6, PL 7 6", "record 1 (`EA 7 5 2 6`): the using count is 2, and the variables"),
        ("EA 7 5 0 6, PL 7 6", "record 1 (`EA 7 5 0 6`): the using count is 0, and the variables"),
        ("EA 7 5 9, VR 7", "record 1 (`EA 7 5 9`): the using count is 9; it runs from 0 to 8"),
        ("LT 0, KN 2", "record 1 (`LT 0`): the formula ends without the second of its two"),
        ("IN 0 1, EA 1 0 0", "record 2 (`EA 1 0 0`): the formula ends without its body"),
        ("VR 0, VR 1", "record 2 (`VR 1`): the formula's expression has ended before it"),
        ("LT 0, IN 1 0", "record 2 (`IN 1 0`): an IN record stands before the expression only"),
        ("IN 0 0", "record 1 (`IN 0 0`): the formula ends here, without an expression"),
        ("IB 0, VR 0", "record 1 (`IB 0`): the depth is missing"),
        ("LT 0, IB 1 0", "record 2 (`IB 1 0`): an IB record stands before the expression only"),
        ("KB 2", "record 1 (`KB 2`): the bool is 2; it runs from 0 to 1"),
        ("LE 0", "record 1 (`LE 0`): the second variable is missing"),
        ("EQ 0 64", "record 1 (`EQ 0 64`): the second variable is 64; it runs from 0 to 63"),
        ("NO", "record 1 (`NO`): the variable is missing"),
        ("GU 0 2 1, VR 1", "record 1 (`GU 0 2 1`): the using count is 2, and the variables"),
        ("IB 0 0, GU 0 0", "record 2 (`GU 0 0`): the formula ends without its body"),
        ("VR 0, VA 1", "record 2 (`VA 1`): value texts stand after the formula, not in it"),
        ("VR 0,", "record 2 (``): no record stands here"),
        ("", "record 1 (``): no record stands here"),
    ];
    for (notation, wrong) in cases {
        let error = notation::formula(notation).expect_err(notation).to_string();
        assert!(error.starts_with(wrong), "{notation}: {error}");
    }
    let error = notation::job("IN 0 0, VR 0", &["1", "2"]).unwrap_err().to_string();
    assert_eq!(error, "each IN or IB record wants a value text: such records 1, value texts 2");
}
