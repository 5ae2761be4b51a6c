//! Stored hall files for the closing total.
use crate::stored::files::{Named, formula, named, of_text};
use crate::truth::hall_file::file;

/// Of each kind an answer with no root, with one and with several, simple and multiple ones, and
/// between them refusals of each kind.
pub const COUNTED: &str = "\
list 2^-30 1 0 1
list 2^-30 nan
list 2^-30 -6 2
list 2^-30 0 0 0 0 1
list 2^-30
list 2^-30 24 -50 35 -10 1
list 2^-30 1 2 3 4 5 6
list 2^-30 0 0 -3 -2 1
quad 2^-30 2^-30 1 -3 2
quad 2^-30 2^-30 inf 1 1
quad 2^-30 2^-30 1 2 1
quad 2^-30 2^-30 0 2 -4
quad 2^-30 -1 0 1 1
quad 2^-30 2^-30 0 0 5
quad 2^-30 2^-30 1 0 1
crank 2^-30 0 0 1 0 5
crank 2^-30 0 0 nan 0 0
crank 2^-30 0 0 1 0 -1
crank 2^-30 1e308 1e308 1e308 1e308 1e308
crank 2^-30 1 0 0 0 0.5
crank 2^-30 0 0 0 0 0
crank 2^-30 1 0 0 0 1
contact 2^-30 0 1 0 2 0 0 3 0 1
contact inf 0 1 0 0 0 0 3 0 1
contact 2^-30 0 1 0 0 0 0 3 0 1
contact 2^-30 0 1 0 0 0 0 3 0 0
contact 0.25 5.25 0 0 -3 1 0 0 0 5
contact 2^-30 0 1e200 0 0 0 0 3 0 1
contact 2^-30 5 0 0 -3 1 0 0 0 5
contact 2^-30 0 0 0 0 0 0 3 0 1
contact 3/512 0 30/256 0 257/256 1/512 -2/256 0 0 1
formula 2^-30 t^2+1
formula 2^-30 0x3274
formula 2^-30 (t-2)^2*(t+1)
formula 2^-30 t^5
formula 2^-30 t^4
formula 2^-30 (10000*t)^9
formula 2^-30 t-1
formula 2^-30 7
formula 2^-30 (t^2-2)^2-1
";

/// Places that do not count.
const QUADRATICS: &str = "\
quad 2^-30 2^-30 1 -3 2
quad 2^-30 2^-30 1 2 1
quad 2^-30 2^-30 0 2 -4
quad 2^-30 2^-30 0 0 5
quad 2^-30 2^-30 1 0 1
";

/// Records that count, and nothing in them.
const REFUSED: &str = "\
list 2^-30
quad 2^-30 2^-30 nan 1 1
crank 2^-30 0 0 0 0 0
contact 2^-30 0 1 0 0 0 0 3 0 0
formula 2^-30 t^5
";

/// Read to the end and not, quadratics alone, refused records alone, and as many roots as take one
/// digit, two and three.
pub fn files() -> Vec<Named> {
    let counted = of_text(COUNTED);
    let behind = |tail: &[u8]| [&counted[..], tail].concat();
    let mut all = vec![
        named("total", behind(b"")),
        named("total_unknown_mark", behind(b"XX")),
        named("total_cut", behind(b"TG")),
        named("total_count_33", behind(b"PL\x21")),
        named("total_quadratics", of_text(QUADRATICS)),
        named("total_refused", of_text(REFUSED)),
    ];
    for count in [1, 9, 10, 99, 100] {
        all.push(named(&format!("total_of_{count}"), file(&vec![formula("t"); count])));
    }
    all
}
