//! The state of a gate and what events do to it.

use crate::event::Event;
use crate::fault::Cause;
use crate::registry::Registry;

pub struct Gate {
    pub owner: u16,
    pub day: u32,
    pub registry: Registry,
}

impl Gate {
    pub fn new(owner: u16) -> Gate {
        Gate { owner, day: 0, registry: Registry::default() }
    }

    /// Takes an event; a refused one changes nothing.
    #[inline]
    pub fn take(&mut self, event: Event) -> Result<(), Cause> {
        match event {
            Event::Certificate(certificate) => self.registry.add(certificate),
            Event::TakenBack(number) => self.registry.take_back(number),
            Event::Day => {
                self.day = self.day.checked_add(1).ok_or(Cause::LastDay)?;
                Ok(())
            }
        }
    }
}
