//! Quadratics and the crank's quartic. An answer of a quadratic is its number, 0 to 4 for two, one,
//! linear, degenerate and empty, and its two places, NaN where there is none.
pub use super::exported::quadratic_centre;
use super::{answered, exported, numbers};

/// An answer's number and places.
pub type Solution = (u32, [f64; 2]);

fn solution([n, places @ ..]: [f64; 3]) -> Solution {
    (n as u32, places)
}

/// The refusal's number, 0 where there is none, and the answer, empty where refused. The two
/// tolerances are confusion and angular.
pub fn quadratic([a, b, c]: [f64; 3], [con, ang]: [f64; 2]) -> (u32, Solution) {
    match answered(|out| exported::quadratic(a, b, c, con, ang, out)) {
        Ok(answer) => (0, solution(answer)),
        Err(refusal) => (refusal as u32, (4, [f64::NAN; 2])),
    }
}

/// `solve_quadratic`'s answer.
pub fn solve_quadratic([a, b, c]: [f64; 3], [con, ang]: [f64; 2]) -> Solution {
    solution(numbers(|out| exported::solve_quadratic(a, b, c, con, ang, out)))
}

/// `shifted`'s answer; every number from 4 on is an empty answer.
pub fn shifted((n, [x, y]): Solution, t0: f64) -> Solution {
    solution(numbers(|out| exported::shifted(n, x, y, t0, out)))
}

/// `touching_at`'s answer, with the reply.
pub fn touching_at((n, [x, y]): Solution, vertex: f64, touches: bool) -> Solution {
    solution(numbers(|out| exported::touching_at(n, x, y, vertex, touches as u32, out)))
}

/// The refusal's number, 0 where there is none; k and the quartic, zeros where refused.
pub fn crank_front([a2, b2, c1, d1, e]: [f64; 5]) -> (u32, (u64, [f64; 5])) {
    match answered::<6>(|out| exported::crank_front(a2, b2, c1, d1, e, out)) {
        Ok([k, q @ ..]) => (0, (k as u64, q)),
        Err(refusal) => (refusal as u32, (0, [0.0; 5])),
    }
}
