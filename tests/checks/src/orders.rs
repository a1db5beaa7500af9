//! Every order that there is.

use reference::arcs::Arcs;
use reference::table::PartNumber;

/// "An order complies if no arc goes backwards."
pub fn complies(order: &[PartNumber], arcs: &Arcs) -> bool {
    let place = |part: &PartNumber| order.iter().position(|other| other == part);
    arcs.iter().all(|(from, to)| place(from) < place(to))
}

/// All orders of these parts.
pub fn orders(parts: &[PartNumber]) -> Vec<Vec<PartNumber>> {
    if parts.is_empty() {
        return vec![Vec::new()];
    }
    let mut all = Vec::new();
    for first in parts {
        let rest: Vec<PartNumber> = parts.iter().filter(|p| *p != first).copied().collect();
        all.extend(orders(&rest).into_iter().map(|order| {
            let mut whole = vec![*first];
            whole.extend(order);
            whole
        }));
    }
    all
}
