//! Which class of motions is due next, and at which cost: a binary heap over the classes, in one row with those that
//! are asleep. A class is asleep where it has been taken from all states that are reached so far.

use crate::cost::Cost;
use crate::order::Class;

/// A class that is due: what a sequence costs that ends with one of its motions.
#[derive(Clone, Copy)]
pub struct Due<C> {
    pub cost: C,
    pub class: u16,
}

/// The first ones are awake: none of them is due sooner than its parent, the one at (its place - 1) / 2.
pub struct Agenda<C> {
    dues: Vec<Due<C>>,
    awake: usize,
}

impl<C: Cost> Agenda<C> {
    pub fn new(classes: &[Class<C>]) -> Agenda<C> {
        let dues = classes.iter().enumerate().map(|(number, class)| Due {
            cost: class.cost,
            class: number as u16,
        });
        Agenda {
            dues: dues.collect(),
            awake: 0,
        }
    }

    /// All classes are due at what they cost: the cheapest first, which is a heap.
    pub fn begin(&mut self, classes: &[Class<C>]) {
        for (number, (due, class)) in self.dues.iter_mut().zip(classes).enumerate() {
            *due = Due {
                cost: class.cost,
                class: number as u16,
            };
        }
        self.awake = self.dues.len();
    }

    /// The class that is due at the least cost, if one is awake.
    #[inline]
    pub fn soonest(&self) -> Option<Due<C>> {
        self.dues[..self.awake].first().copied()
    }

    /// The class that was soonest is due at this cost, which is more: it sinks.
    #[inline]
    pub fn put_off(&mut self, cost: C) {
        self.sink(Due {
            cost,
            class: self.dues[0].class,
        });
    }

    /// The class that was soonest falls asleep.
    pub fn doze(&mut self) {
        self.awake -= 1;
        self.dues.swap(0, self.awake);
        if self.awake > 0 {
            self.sink(self.dues[0]);
        }
    }

    /// Those asleep are due again, at a cost plus their own.
    #[inline]
    pub fn wake(&mut self, cost: C, classes: &[Class<C>]) {
        while self.awake < self.dues.len() {
            let class = self.dues[self.awake].class;
            let cost = cost.plus(classes[usize::from(class)].cost);
            self.awake += 1;
            self.rise(Due { cost, class });
        }
    }

    /// Lays a class down at the first place or, as long as a child of the place is due sooner, further below.
    fn sink(&mut self, due: Due<C>) {
        let dues = &mut self.dues[..self.awake];
        let mut place = 0;
        loop {
            let mut child = 2 * place + 1;
            if child >= dues.len() {
                break;
            }
            if child + 1 < dues.len() && dues[child + 1].cost < dues[child].cost {
                child += 1;
            }
            if due.cost <= dues[child].cost {
                break;
            }
            dues[place] = dues[child];
            place = child;
        }
        dues[place] = due;
    }

    /// Lays a class down at the last place or, as long as the parent of the place is due later, further above.
    fn rise(&mut self, due: Due<C>) {
        let dues = &mut self.dues[..self.awake];
        let mut place = dues.len() - 1;
        while place > 0 {
            let parent = (place - 1) / 2;
            if dues[parent].cost <= due.cost {
                break;
            }
            dues[place] = dues[parent];
            place = parent;
        }
        dues[place] = due;
    }
}
