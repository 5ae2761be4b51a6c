//! What `hall --help` says, and of one command what `hall COMMAND --help` does.

/// A line that begins with `hall` starts a command, and one that begins with a capital a topic.
const HELP: &str = "\
hall make < TEXT > FILE   write a hall file from lines of text, one record each. An error names line
                          and word, of a formula with a mark under the character, and then nothing
                          is written
hall list [FILE]          the listing of a hall file, or of standard input, by the proved lister, as
                          the program hallroots prints it: a line for each record, and at the end
                          `T`, how many lines these are, how many roots they list, and how often the
                          roots count together. Status 1 where the file is not read to its end,
                          which is a refusal under 6, 7, 8 or 9
hall show [FILE] [--csv]  the same for people: each record's equation, a formula multiplied out or
                          with marks under what is wrong in it, places as decimals and bits, how
                          often each counts and its kind, a crank's roots by their angle t from
                          0 to 360 degrees, and in radians (t is k * 45 degrees + 2 atan u), at a
                          contact the ball's place and its distance from the circle, refusals in
                          words with the byte of their record, and places at which exact arithmetic
                          finds no root marked `doubtful`; at the end how many records and roots
                          there are in all, and how often the roots count together; with --csv as
                          comma-separated values, which have no total
hall show [FILE] --systems
                          the same with how many square systems were solved for each record and for
                          all of them; with --csv in its last column
hall explain FILE         why roots are doubtful, with the numbers, and what to do about it: the
                          records that have such, or that there are none. FILE may be `-`
hall explain FILE RECORD  the same of one record, whatever it is
hall draw FILE RECORD     a picture of one record and its answer, in SVG, on standard output: the
                          curve of a list, a quad or a formula with its roots, the circle of a
                          crank with its positions, the circle and the path of a contact with its
                          times, each marked by its kind. FILE may be `-`. Status 1 where the record
                          is refused or is beyond what a picture can show, 2 where there is no such
                          record
hall text [FILE]          write a hall file back as lines of text, of which `hall make` makes the
                          same file. Status 1 where the file is not read to its end
hall compare FILE [--csv] each record by port, reference build (with the listing's sine) and
                          untouched Rust; prints those that differ, places with their distance in
                          doubles, how many were answered, refused and equal, and the three totals;
                          with --csv all records. Status 1 where port and reference build differ, be
                          it in how many square systems they solved; 2 where nothing was compared
hall compare FILE --differences
                          the untouched Rust's departures as rows of a table
hall random N SEED        a hall file of N made records on standard output; the same SEED makes the
                          same file
hall random N SEED --damage
                          the same, and then cut, or with some byte changed
hall bench                how long a call of each proved function takes, beside Rust's
hall lists COUNT SEED     compare COUNT made lists in each mode of the sine with geomcore's Rust and
                          a copy that has the exact sine, on two threads. Status 1 where one
                          differs, 2 where nothing was compared; so for those below
hall inquiries COUNT SEED the same for inquiries: always no, always yes, and by a hash
hall cranks COUNT SEED    the same for crank equations
hall contacts COUNT SEED  the same for pin contacts, each question replied by the record
hall formulas COUNT SEED  the same for formulas, whole and damaged
hall quadratics COUNT SEED
                          the same for quadratics, their centres, shifted and touching ones
hall files COUNT SEED     the same for whole hall files, every other one damaged
hall damage MINUTES SEED  damage stored and made files, those again that met something new; a thread
                          for each mode
hall doubts COUNT SEED    how many good and how many false roots `hall show` marks as doubtful, over
                          COUNT made lists and cranks at the tolerance 2^-30
hall systems COUNT SEED   which lists of degree 3 and 4 take the most square systems, searched for
                          over COUNT lists in each mode, which are compared too
hall coverage COUNT SEED  how often each branch of the reference build was taken, COUNT inputs of
                          each sort; with the feature `coverage`
hall mutants COUNT SEED   after how many made inputs the comparison notices each mistake in a copy
                          of the reference build, in either mode; with the feature `mutants`. Status
                          1 where one of them is not noticed
hall causes COUNT SEED    which leaf makes the untouched Rust depart, over COUNT made lists; with
                          the feature `causes`
hall stored files DIR     write hall files to DIR/data, their names to DIR/args and their listings
                          to DIR/stdout, in the mode of the exact sine: what the crate hallcases
                          reads and prints
hall stored leaves DIR    write inputs of the leaves to DIR/data/leaves, and the exact answers to
                          DIR/stdout: what the crate leafcases reads and prints
hall documents            write the documents that are made from the repository's own text
hall --version            the version of this program
hall --help               this page; `hall COMMAND --help` has the part on one command
";

const RECORDS: &str = "
Records, as lines of text and as marks in the file
  list TOL c0 c1 ..              PL   c0 + c1 x + c2 x^2 .. = 0, of degree 1 to 4
  quad CONFUSION ANGULAR a b c   QD   a x^2 + b x + c = 0
  crank CONFUSION a2 b2 c1 d1 e  TG   a2 cos 2t + b2 sin 2t + c1 cos t + d1 sin t + e = 0
  contact CONFUSION x0 x1 x2 y0 y1 y2 cx cy R
                                 PC   the times t at which a ball at x0 + x1 t + x2 t^2 across
                                      and y0 + y1 t + y2 t^2 along is at the distance R from cx, cy
  formula TOL TEXT               TX   TEXT = 0, a formula in t of degree 1 to 4: (t-2)^2*(t+1)
  slider R L X                   TG   the crank equation of a slider-crank: a crank of radius R
                                      about the origin, a rod of length L, the slider on the x axis
                                      at X: -2XR cos t + R^2 + X^2 - L^2 = 0. Confusion is 2^-30
  slider R L X Y                 TG   the same for a slider's line at height Y
  slider CONFUSION R L X Y       TG   and with another confusion
A # starts a comment.

Tolerances
  tol        of a list or a formula: two roots within tol * (1 + |x|) of their middle count as one,
             twice
  confusion  of a quad: the same; where it is linear, |b| up to this is no equation
             of a crank: the same for u = tan((t - k * 45 degrees) / 2), the root that is listed
             of a contact: the same for t; and where the ball comes within confusion of the circle
             without crossing it, or crosses it by no more, it brushes it there, twice
  angular    of a quad: |a| up to this counts as 0, and the equation as linear
  2^-30, about 1e-9, is usual for all; geomcore itself has 1e-7 for confusion, 1e-12 for angular.
";

const KINDS: &str = "
Kinds of roots, as words and as letters of the listing
  crossing  c  counts once
  brush     b  counts more often, and at least one yes reply helped to form it: of contacts alone
  flat      f  counts more often without one: roots that the tolerance joins, or the root 0
";

const NUMBERS: &str = "
Numbers
  1.5, -3, 2e-9, 1/2, 2^-30, 10^-9, inf, -inf, nan, or bits behind 0x (0x3FF0000000000000); each
  stands for the nearest double, and capital letters count as small ones. Refused are what no double
  is near (1e400, 1e-400), a decimal comma, and a minus sign that is not `-`.
";

const FORMULAS: &str = "
Formulas
  A sum is terms joined by + or -, a term is factors joined by *, and a factor is a whole number of
  one to nine digits, the letter t, or a sum in round brackets, each with or without a power: ^ and
  one digit. So a formula has no blanks, no sign in front (0-t) and no product without its sign
  (2*t), and at most 255 characters. Bytes behind 0x (0x742D32) need not be a sum.
";

const STATUSES: &str = "
Statuses
  0  done; where it is compared, port and reference build are equal
  1  they differ; or a file cannot be read or written, a line makes no record, or `list` or `text`
     cannot read a file to its end
  2  the words make no command; or nothing was compared: no record, no geomcore, or no such build
";

/// All of it.
pub fn all() -> String {
    [HELP, RECORDS, KINDS, NUMBERS, FORMULAS, STATUSES].concat()
}

/// The help on one command; nothing where there is no such command.
pub fn of_command(name: &str) -> String {
    let (mut own, mut text) = (false, String::new());
    for line in HELP.lines() {
        if let Some(command) = line.strip_prefix("hall ") {
            own = command.split(' ').next() == Some(name);
        }
        if own {
            text += &format!("{line}\n");
        }
    }
    text
}

/// The same with the topics that it needs.
pub fn with_topics(name: &str) -> String {
    let topics: &[&str] = match name {
        "make" => &[RECORDS, NUMBERS, FORMULAS],
        "list" | "show" | "explain" | "draw" | "compare" => &[RECORDS, KINDS],
        "text" => &[RECORDS],
        _ => &[],
    };
    of_command(name) + &topics.concat()
}

#[cfg(test)]
mod tests {
    use super::*;

    #[test]
    fn every_line_fits() {
        for line in all().lines() {
            assert!(line.chars().count() <= crate::people::table::COLUMNS, "{line}");
        }
    }
}
