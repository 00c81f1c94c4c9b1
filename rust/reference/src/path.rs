//! S6: a flow's paths in order.

use crate::check::Sheet;
use crate::tables::Target;
use crate::{Ending, Refused};

/// Puts path 0 in the buffer.
pub fn first(sheet: &Sheet, flow: usize, path: &mut [u16]) -> Ending {
    let step = sheet.group_of_flow(flow).start;
    let first = sheet.group_of_step(step).start;
    smallest_from(sheet, path, 0, first)
}

/// Puts the path that follows the one at the buffer's head in the buffer.
///
/// That path differs from it first at the last place where a larger route of the same step exists; the next
/// larger one stands there, and after it the smallest routes.
pub fn next(sheet: &Sheet, flow: usize, path: &mut [u16]) -> Result<Ending, Refused> {
    let mut step = sheet.group_of_flow(flow).start;
    let mut turn = None;
    // The buffer is as long as the flow has steps, and step numbers rise: the path ends within it.
    for (place, &route) in path.iter().enumerate() {
        let routes = sheet.group_of_step(step);
        let route = route as usize;
        if !routes.contains(&route) {
            return Err(Refused::plain(12));
        }
        if route + 1 < routes.end {
            turn = Some((place, route + 1));
        }
        match sheet.follow(route) {
            Target::Step(next) => step = next,
            Target::Terminal(_) => break,
        }
    }
    let (place, route) = turn.ok_or(Refused::plain(13))?;
    Ok(smallest_from(sheet, path, place, route))
}

/// Puts this route at this place, the smallest routes after it, and zeros after the path.
fn smallest_from(sheet: &Sheet, path: &mut [u16], mut place: usize, mut route: usize) -> Ending {
    loop {
        path[place] = route as u16;
        place += 1;
        match sheet.follow(route) {
            Target::Step(step) => route = sheet.group_of_step(step).start,
            Target::Terminal(terminal) => {
                path[place..].fill(0);
                return Ending { terminal, length: place };
            }
        }
    }
}
