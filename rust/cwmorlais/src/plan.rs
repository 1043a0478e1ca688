//! What set-up is told.

pub use crate::sys::Plan;

impl Plan {
    /// So many desks, and a cell for each of these keepers, in order. Any numbers make a plan; one
    /// that no tray has is refused where it is used, and more than 32 keepers are too many cells.
    ///
    /// ```
    /// use cwmorlais::{Plan, Refusal, Table};
    /// let plan = Plan::new(3, &[1, 0]);
    /// assert_eq!((plan.desks, plan.cells, &plan.keepers[..3]), (3, 2, &[1, 0, 0][..]));
    /// assert_eq!(Table::set_up(&Plan::new(3, &[0; 33])), Err(Refusal::SetUpCells));
    /// ```
    #[must_use]
    pub fn new(desks: u32, keepers: &[u32]) -> Plan {
        let mut plan = Plan {
            desks,
            cells: keepers.len().try_into().unwrap_or(u32::MAX),
            ..Plan::default()
        };
        for (to, &from) in plan.keepers.iter_mut().zip(keepers) {
            *to = from;
        }
        plan
    }
}
