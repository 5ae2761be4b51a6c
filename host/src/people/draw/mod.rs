//! `hall draw`: a record and its answer as a picture.
mod around;
mod canvas;
mod contact;
mod crank;
mod curve;
mod figures;

use crate::people::show::{Place, Shown};
use crate::people::table::DOUBTFUL;
use crate::truth::hall_file::Record;
use crate::truth::kind::Kind;
use canvas::Canvas;

/// How a mark looks. No two differ in colour alone.
#[derive(Clone, Copy, PartialEq)]
enum Form {
    Of(Kind),
    Doubtful,
}

impl Form {
    /// In the order of the legend.
    const ALL: [Form; 4] =
        [Form::Of(Kind::Crossing), Form::Of(Kind::Brush), Form::Of(Kind::Flat), Form::Doubtful];

    /// In the legend; its class too.
    fn word(self) -> &'static str {
        match self {
            Form::Of(kind) => kind.word(),
            Form::Doubtful => DOUBTFUL,
        }
    }
}

/// A root, a position of a crank or a contact, as it is marked.
struct Mark {
    /// x, t in degrees, or t.
    place: f64,
    multiplicity: u32,
    kind: Kind,
    doubtful: bool,
}

impl Mark {
    fn new(root: &Place) -> Mark {
        let Place { place, multiplicity, kind, angle, doubtful, .. } = *root;
        Mark { place: angle.unwrap_or(place), multiplicity, kind, doubtful }
    }

    fn form(&self) -> Form {
        if self.doubtful { Form::Doubtful } else { Form::Of(self.kind) }
    }

    /// What is said behind its place; a crossing counts once.
    fn words(&self) -> String {
        let kind = self.kind.word();
        let words = match (self.kind, self.multiplicity) {
            (Kind::Crossing, _) => String::new(),
            (_, 2) => format!(", {kind}, twice"),
            (_, n) => format!(", {kind}, {n} times"),
        };
        if self.doubtful { format!("{words}, {DOUBTFUL}") } else { words }
    }
}

fn places(marks: &[Mark]) -> Vec<f64> {
    marks.iter().map(|mark| mark.place).collect()
}

/// The picture of a record, or why there is none.
pub fn drawn(shown: &Shown) -> Result<String, String> {
    let record = match (&shown.item.record, &shown.refusal) {
        (Ok(record), None) => record,
        (_, refusal) => {
            let (number, why) = refusal.clone().unwrap_or_default();
            return Err(format!("it is refused under {number}: {why}"));
        }
    };
    let Shown { item, kind, tolerances, answer, .. } = shown;
    let below = format!("record {}, {kind}, {tolerances}: {answer}", item.number);
    let mut canvas = Canvas::new(&shown.question, &below);
    let marks: Vec<Mark> = shown.roots.iter().map(Mark::new).collect();
    canvas.legend(&marks);
    match record {
        Record::List { .. } | Record::Quadratic { .. } => {
            curve::draw(&mut canvas, &shown.coeffs, "x", &marks)?
        }
        Record::Formula { .. } => curve::draw(&mut canvas, &shown.coeffs, "t", &marks)?,
        Record::Crank { .. } => crank::draw(&mut canvas, &marks),
        Record::Contact(contact) => contact::draw(&mut canvas, contact, &marks)?,
    }
    Ok(canvas.finish())
}
