//! The sheets that are timed: a formula, readings as value text, and the job's bytes.

/// Which sheet it is. Both give a total for each stop of each area.
#[derive(Clone, Copy)]
pub enum Kind {
    /// The number is a correction, added to each reading.
    Corrected,
    /// The number is a limit, and only readings that reach it count: a guard on each of them.
    Guarded,
}

/// The same inputs, and the number alone as the answer.
const INPUTS_ONLY: &str = "IN 0 3, IN 1 0, VR 1";

pub struct Sheet {
    pub kind: Kind,
    pub readings: usize,
    pub areas_text: String,
    pub number_text: String,
    pub job: Vec<u8>,
    /// A job that reads the same inputs and works out nothing.
    pub inputs_only: Vec<u8>,
}

impl Kind {
    pub const ALL: [Kind; 2] = [Kind::Corrected, Kind::Guarded];

    /// The kind of this name; the corrected one where none is given.
    pub fn named(words: &[&str]) -> Option<Kind> {
        match words {
            [] | ["corrected"] => Some(Kind::Corrected),
            ["guarded"] => Some(Kind::Guarded),
            _ => None,
        }
    }

    pub fn title(self) -> &'static str {
        match self {
            Kind::Corrected => "a plus on each reading and a sum for each stop",
            Kind::Guarded => "a guard on each reading and a sum for each stop",
        }
    }

    fn formula(self) -> &'static str {
        match self {
            Kind::Corrected => {
                "IN 0 3, IN 1 0, EA 2 0 1 1, EA 3 2 1 1, LT 4, EA 5 3 1 1, PL 5 1, SM 4"
            }
            Kind::Guarded => {
                "IN 0 3, IN 1 0, EA 2 0 1 1, EA 3 2 1 1, LT 4, EA 5 3 1 1, LT 6, LE 1 5, \
                 LT 7, GU 6 1 5, VR 5, SM 7, SM 4"
            }
        }
    }

    /// A correction, or a limit that half of the readings reach.
    fn number(self) -> usize {
        match self {
            Kind::Corrected => 4,
            Kind::Guarded => 500,
        }
    }
}

impl Sheet {
    /// A sheet of so many readings, a multiple of a hundred.
    pub fn new(kind: Kind, readings: usize) -> Sheet {
        let reading = |index: usize| (index * 7_919 % 1_000).to_string();
        let stop = |stop: usize| braces((stop * 10..stop * 10 + 10).map(reading));
        let area = |area: usize| braces((area * 10..area * 10 + 10).map(stop));
        let areas_text = braces((0..readings / 100).map(area));
        let number_text = kind.number().to_string();
        let job = |formula: &str| {
            notation::job(formula, &[&areas_text, &number_text])
                .unwrap_or_else(|error| panic!("the sheet is a job: {error}"))
        };
        Sheet {
            kind,
            readings,
            job: job(kind.formula()),
            inputs_only: job(INPUTS_ONLY),
            areas_text,
            number_text,
        }
    }
}

fn braces(items: impl Iterator<Item = String>) -> String {
    format!("{{{}}}", items.collect::<Vec<_>>().join(","))
}
