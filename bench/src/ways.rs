//! The unproved searches, by name.

use crate::by_rows::ByRows;
use crate::cost::{ByteCost, Cost, Kind, LineCost};
use crate::lazily::Lazily;
use crate::panel::Panel;
use crate::search::Search;
use crate::searcher::Searcher;

/// How a search goes about it.
#[derive(Clone, Copy, Debug, PartialEq, Eq)]
pub enum Way {
    /// As the proved one does.
    Twin,
    ByRows,
    Lazily,
}

impl Way {
    pub fn name(self) -> &'static str {
        match self {
            Way::Twin => "twin",
            Way::ByRows => "by rows",
            Way::Lazily => "lazily",
        }
    }

    pub fn on<C: Cost + 'static>(self, panel: impl Panel + 'static) -> Box<dyn Searcher> {
        match self {
            Way::Twin => Box::new(Search::<_, C>::new(panel)),
            Way::ByRows => Box::new(ByRows::<_, C>::new(panel)),
            Way::Lazily => Box::new(Lazily::<_, C>::new(panel)),
        }
    }

    pub fn by(self, kind: Kind, panel: impl Panel + 'static) -> Box<dyn Searcher> {
        match kind {
            Kind::Byte => self.on::<ByteCost>(panel),
            Kind::Line => self.on::<LineCost>(panel),
        }
    }
}
