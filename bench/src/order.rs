//! The order in which the searches take a panel's motions, made once for a panel: the cheapest first, and of those that
//! cost the same the one with the smallest number. The motions of one cost are a class.

use crate::cost::Cost;
use crate::panel::Panel;

/// A motion, and what its cost is reckoned from.
#[derive(Clone, Copy, Debug, Default)]
#[repr(C)]
pub struct Offer {
    pub motion: u16,
    pub milliseconds: u16,
    pub bytes: u8,
}

/// The motions of one cost, by their numbers.
#[derive(Clone, Copy, Debug)]
pub struct Class<C> {
    pub cost: C,
    first: u16,
    end: u16,
}

/// The motions in their order, and the classes, the cheapest first.
pub struct Classes<C> {
    motions: Vec<u16>,
    pub classes: Vec<Class<C>>,
}

impl Offer {
    pub fn cost<C: Cost>(self) -> C {
        C::of_motion(self.bytes, self.milliseconds)
    }
}

/// The motions of the panel and, as the motion after them, the retype: it has one byte and takes no time.
pub fn in_order<C: Cost>(panel: &impl Panel) -> Vec<Offer> {
    let mut spelled = Vec::new();
    let mut order: Vec<Offer> = (0..panel.motions())
        .map(|motion| {
            spelled.clear();
            panel.spell(motion, &mut spelled);
            Offer {
                motion,
                milliseconds: panel.milliseconds(motion),
                bytes: spelled.len() as u8,
            }
        })
        .collect();
    order.push(Offer {
        motion: panel.motions(),
        milliseconds: 0,
        bytes: 1,
    });
    order.sort_by_key(|offer| offer.cost::<C>());
    order
}

impl<C: Cost> Classes<C> {
    pub fn new(panel: &impl Panel) -> Classes<C> {
        let order = in_order::<C>(panel);
        let mut classes: Vec<Class<C>> = Vec::new();
        for (at, offer) in order.iter().enumerate() {
            let end = at as u16 + 1;
            match classes.last_mut() {
                Some(class) if class.cost == offer.cost() => class.end = end,
                _ => classes.push(Class {
                    cost: offer.cost(),
                    first: at as u16,
                    end,
                }),
            }
        }
        Classes {
            motions: order.iter().map(|offer| offer.motion).collect(),
            classes,
        }
    }

    /// The motions of the class with a number.
    #[inline]
    pub fn motions(&self, class: usize) -> &[u16] {
        let class = &self.classes[class];
        &self.motions[usize::from(class.first)..usize::from(class.end)]
    }
}
