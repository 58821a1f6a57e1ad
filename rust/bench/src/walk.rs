//! The plain Rust side: nested vectors, walked as one would write it without the library.

use crate::sheet::{Kind, Sheet};
use crate::timing::time_of;
use crate::Times;
use std::fmt::Write;
use std::hint::black_box;

type Areas = Vec<Vec<Vec<i32>>>;

pub fn times(sheet: &Sheet) -> Times {
    let (areas, number) = (read_areas(&sheet.areas_text), read_int(&sheet.number_text));
    let totals = totals_of(sheet.kind);
    Times {
        with_text: time_of(|| from_text_to_text(black_box(sheet))),
        alone: time_of(|| totals(black_box(&areas), black_box(number))),
    }
}

/// A call from text to text, and one without the text.
pub fn call(sheet: &Sheet) -> Box<dyn FnMut() + '_> {
    Box::new(|| {
        black_box(from_text_to_text(sheet));
    })
}

pub fn call_alone(sheet: &Sheet) -> Box<dyn FnMut() + '_> {
    let (areas, number) = (read_areas(&sheet.areas_text), read_int(&sheet.number_text));
    let totals = totals_of(sheet.kind);
    Box::new(move || {
        black_box(totals(black_box(&areas), black_box(number)));
    })
}

pub fn from_text_to_text(sheet: &Sheet) -> String {
    let (areas, number) = (read_areas(&sheet.areas_text), read_int(&sheet.number_text));
    write_totals(&totals_of(sheet.kind)(&areas, number))
}

/// The total of each stop of each area, from the areas and the sheet's number.
fn totals_of(kind: Kind) -> fn(&Areas, i32) -> Vec<Vec<i32>> {
    match kind {
        Kind::Corrected => corrected_totals,
        Kind::Guarded => guarded_totals,
    }
}

/// The correction is added to each reading.
fn corrected_totals(areas: &Areas, correction: i32) -> Vec<Vec<i32>> {
    let total = |stop: &Vec<i32>| {
        let corrected: Vec<i32> = stop.iter().map(|reading| plus(*reading, correction)).collect();
        let total: i64 = corrected.iter().map(|reading| i64::from(*reading)).sum();
        i32::try_from(total).expect("a total in range")
    };
    areas.iter().map(|area| area.iter().map(total).collect()).collect()
}

/// Only readings that reach the limit count.
fn guarded_totals(areas: &Areas, limit: i32) -> Vec<Vec<i32>> {
    let total = |stop: &Vec<i32>| {
        let mut total: i64 = 0;
        for reading in stop {
            if limit <= *reading {
                total += i64::from(*reading);
            }
        }
        i32::try_from(total).expect("a total in range")
    };
    areas.iter().map(|area| area.iter().map(total).collect()).collect()
}

fn plus(left: i32, right: i32) -> i32 {
    left.checked_add(right).expect("a sum in range")
}

fn read_areas(text: &str) -> Areas {
    let mut rest = text.as_bytes();
    read_list(&mut rest, |rest| read_list(rest, |rest| read_list(rest, read_number)))
}

fn read_int(text: &str) -> i32 {
    read_number(&mut text.as_bytes())
}

fn read_list<Item>(rest: &mut &[u8], mut read_item: impl FnMut(&mut &[u8]) -> Item) -> Vec<Item> {
    take(rest, b'{');
    let mut items = Vec::new();
    if rest[0] == b'}' {
        take(rest, b'}');
        return items;
    }
    loop {
        items.push(read_item(rest));
        if rest[0] == b'}' {
            take(rest, b'}');
            return items;
        }
        take(rest, b',');
    }
}

fn read_number(rest: &mut &[u8]) -> i32 {
    let negative = rest[0] == b'-';
    if negative {
        take(rest, b'-');
    }
    let mut number: i64 = 0;
    while let Some(digit) = rest.first().filter(|byte| byte.is_ascii_digit()) {
        number = number * 10 + i64::from(digit - b'0');
        *rest = &rest[1..];
    }
    i32::try_from(if negative { -number } else { number }).expect("a number in range")
}

fn take(rest: &mut &[u8], byte: u8) {
    assert_eq!(rest[0], byte, "value text is well formed");
    *rest = &rest[1..];
}

fn write_totals(areas: &[Vec<i32>]) -> String {
    let mut text = String::from("{");
    for (index, area) in areas.iter().enumerate() {
        text.push_str(if index > 0 { ",{" } else { "{" });
        for (index, total) in area.iter().enumerate() {
            let comma = if index > 0 { "," } else { "" };
            let _ = write!(text, "{comma}{total}");
        }
        text.push('}');
    }
    text.push('}');
    text
}

#[cfg(test)]
mod tests {
    use super::*;

    #[test]
    fn the_walk_answers_as_the_model_does() {
        for kind in Kind::ALL {
            let sheet = Sheet::new(kind, 1_000);
            let run = reference::run(&sheet.job, 16_384, 65_536).expect("a sheet with an answer");
            assert_eq!(from_text_to_text(&sheet).as_bytes(), run.text, "{}", kind.title());
        }
    }
}
