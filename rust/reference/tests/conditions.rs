//! Conditions worked out by hand from the charge table and the order of refusals, where the vectors
//! say nothing or only a whole run.

use reference::record::Record;
use reference::{check, list, run, streams_to_text, Base, Refusal, Type};

fn ints(variable: u8, depth: u8) -> Record {
    Record::Input { variable, base: Base::Int, depth }
}

fn bools(variable: u8, depth: u8) -> Record {
    Record::Input { variable, base: Base::Bool, depth }
}

fn guarded(guard: u8, using: &[u8]) -> Record {
    Record::Guarded { guard, using: using.to_vec() }
}

fn job(formula: &[Record], texts: &[&str]) -> Vec<u8> {
    let values = texts.iter().map(|text| Record::Value { text: text.as_bytes().to_vec() });
    Record::write_all(&formula.iter().cloned().chain(values).collect::<Vec<_>>())
}

/// The answer, its work, steps and room.
fn figures(formula: &[Record], texts: &[&str]) -> (String, u64, u64, u64) {
    let run = run(&job(formula, texts), 16_384, 65_536).expect("a value");
    (String::from_utf8(run.text).unwrap(), run.work, run.steps, run.room)
}

#[test]
fn a_list_of_lists_is_packed_level_by_level() {
    let formula = [bools(0, 0), ints(1, 2), guarded(0, &[1]), Record::Variable { variable: 1 }];
    // The guard 6 or 3; then 18 or 15 for two items, 12 or 10 for one, 6 or 5 for none, 3 or 2 for 5.
    let kept = figures(&formula, &["T", "{{5},{}}"]);
    assert_eq!(kept, ("{{{5},{}}}".to_string(), 45, 9, 20));
    let dropped = figures(&formula, &["F", "{{5},{}}"]);
    assert_eq!(dropped, ("{}".to_string(), 35, 9, 12));
    // An empty list reaches its own level alone.
    let empty = figures(&formula, &["T", "{}"]);
    assert_eq!(empty, ("{{}}".to_string(), 12, 5, 5));
    let listing = "s4 := B2u(s0)\ns5 := Usum(s4)\ns6 := UPack(s0,s3)\ns7 := Distr(s3,s0)\n\
                   s8 := Usum(s3)\n[s9,s12] := WithCtrl(s8,[s1,s2,s7]) {\ns9 := UPack(s7,s2)\n\
                   s10 := Distr(s2,s7)\ns11 := Usum(s2)\n[s12] := WithCtrl(s11,[s1,s10]) {\n\
                   s12 := Pack(s10,s1)\n}\n}\n[] := WithCtrl(s5,[]) {\n}\n\
                   result (((s12,s9),s6),s4)\n";
    assert_eq!(list(&Record::write_all(&formula), 65_536).as_deref(), Ok(listing));
}

#[test]
fn a_body_that_would_fail_is_not_run_where_the_guard_is_false() {
    let formula = [bools(0, 0), ints(1, 0), guarded(0, &[1]), Record::Iota { variable: 1 }];
    assert_eq!(figures(&formula, &["F", "-1"]), ("{}".to_string(), 5, 3, 3));
    let refused = run(&job(&formula, &["T", "-1"]), 16_384, 65_536);
    assert_eq!(refused, Err(Refusal::new(8, 5)));
}

#[test]
fn five_comes_before_six_at_a_guard() {
    let inputs = [ints(0, 0), bools(1, 1)];
    let refusal = |using: &[u8], guard: u8| {
        let body = [guarded(guard, using), Record::Variable { variable: 9 }];
        check(&Record::write_all(&[inputs.as_slice(), &body].concat())).expect_err("a refusal")
    };
    assert_eq!(refusal(&[1], 0), Refusal::new(6, 8));
    assert_eq!(refusal(&[], 1), Refusal::new(6, 8));
    assert_eq!(refusal(&[1, 1], 0), Refusal::new(5, 8));
    assert_eq!(refusal(&[7], 0), Refusal::new(5, 8));
    assert_eq!(refusal(&[], 7), Refusal::new(5, 8));
}

#[test]
fn a_bool_that_is_none_is_a_misfit_after_the_flags() {
    let refused = |elements: &[i32], of: Type| streams_to_text(elements, &[1, 2], of, 9);
    assert_eq!(refused(&[2, 0, 1], Type::bools(1)), Err(Refusal::new(11, 0)));
    assert_eq!(refused(&[2, 0, 0], Type::bools(1)), Err(Refusal::new(11, 1)));
    assert_eq!(refused(&[2, 0, 1], Type::ints(1)), Ok(b"{2}".to_vec()));
    assert_eq!(refused(&[1, 0, 1], Type::bools(1)), Ok(b"{T}".to_vec()));
}
