//! Silent connections, and which of them has to go where another one needs its place.
//!
//! It is of the network that has most connections, of those with silent ones, and there the one that is silent for
//! longest, first of those that have asked nothing yet. Whoever has as many himself makes room by his own. So who opens
//! many pushes out nobody else's.
//!
//! ```text
//! A has 5, of them 2 silent; B has 3 silent ones     one of A's comes: A's oldest goes
//!                                                    one of B's comes: A's oldest goes
//! A has 5, all busy; B has 3 silent ones             one of A's comes: none goes
//! ```
//!
//! 1. `crowds` has each network that has silent connections once, with how many it has in all.
//! 2. Each call costs O(log n).
//! 3. Of several programs at one address, one that opens connections and asks nothing pushes out its own.

use std::collections::{BTreeMap, BTreeSet, HashMap};
use std::net::IpAddr;

/// A silence: whether its connection has asked before, and its number. Those that are less have to go first.
pub type Silence = (bool, u64);

#[derive(Default)]
pub struct Silences {
    /// The number of the last silence.
    last: u64,
    of: HashMap<IpAddr, Network>,
    crowds: BTreeSet<(usize, IpAddr)>,
}

#[derive(Default)]
struct Network {
    /// How many connections it has.
    open: usize,
    /// Whose each of its silences is.
    silent: BTreeMap<Silence, u64>,
}

impl Silences {
    pub fn come(&mut self, network: IpAddr) {
        self.change(network, |it| it.open += 1);
    }

    pub fn go(&mut self, network: IpAddr) {
        self.change(network, |it| it.open -= 1);
    }

    /// A connection of a network falls silent.
    pub fn add(&mut self, network: IpAddr, connection: u64, has_asked: bool) -> Silence {
        self.last += 1;
        let silence = (has_asked, self.last);
        self.change(network, |it| {
            it.silent.insert(silence, connection);
        });
        silence
    }

    pub fn remove(&mut self, network: IpAddr, silence: Silence) {
        self.change(network, |it| {
            it.silent.remove(&silence);
        });
    }

    /// The connection that has to go where one of this network comes, if there is one.
    pub fn first(&self, comes: IpAddr) -> Option<u64> {
        let &(most, network) = self.crowds.last()?;
        let own = self.of.get(&comes).map_or(0, |it| it.open);
        let network = if most > own { network } else { comes };
        self.of.get(&network)?.silent.first_key_value().map(|(_, connection)| *connection)
    }

    fn change(&mut self, network: IpAddr, how: impl FnOnce(&mut Network)) {
        let it = self.of.entry(network).or_default();
        self.crowds.remove(&(it.open, network));
        how(it);
        if !it.silent.is_empty() {
            self.crowds.insert((it.open, network));
        } else if it.open == 0 {
            self.of.remove(&network);
        }
    }
}

#[cfg(test)]
mod tests {
    use super::*;
    use crate::testing::Dice;

    #[test]
    fn the_example_of_the_head() {
        let [a, b, c] = [1, 2, 3].map(|last| IpAddr::from([192, 0, 2, last]));
        let mut silences = Silences::default();
        (0..5).for_each(|_| silences.come(a));
        (0..3).for_each(|_| silences.come(b));
        (0..3).for_each(|connection| assert!(silences.add(b, connection, true) > (true, 0)));
        let own = [3, 4].map(|connection| silences.add(a, connection, true));
        assert_eq!([a, b, c].map(|it| silences.first(it)), [Some(3); 3]);
        own.into_iter().for_each(|silence| silences.remove(a, silence));
        assert_eq!([a, b, c].map(|it| silences.first(it)), [None, Some(0), Some(0)]);
    }

    #[test]
    fn who_has_asked_nothing_yet_goes_before_who_has() {
        let a = IpAddr::from([192, 0, 2, 1]);
        let mut silences = Silences::default();
        (0..4).for_each(|_| silences.come(a));
        let asked = [false, true, false].map(|has_asked| silences.add(a, silences.last, has_asked));
        for (silence, first) in asked.into_iter().zip([Some(0), Some(2), Some(2)]) {
            assert_eq!(silences.first(a), first);
            silences.remove(a, silence);
        }
        assert_eq!(silences.first(a), None);
    }

    #[test]
    fn networks_are_counted_whatever_comes_and_goes() {
        let mut dice = Dice::new(31);
        let networks = [1, 2, 3].map(|last| IpAddr::from([192, 0, 2, last]));
        // Each with its network, and its silence where it is silent.
        let (mut silences, mut there) = (Silences::default(), Vec::<(IpAddr, Option<Silence>, u64)>::new());
        for connection in 0..5000 {
            let at = dice.below(there.len().max(1) as u64) as usize;
            match (dice.below(5), there.get_mut(at)) {
                (0, Some((network, silence @ None, connection))) => {
                    *silence = Some(silences.add(*network, *connection, dice.one_in(2)))
                }
                (1, Some((network, silence, _))) => {
                    silence.take().into_iter().for_each(|it| silences.remove(*network, it))
                }
                (2, Some(_)) => {
                    let (network, silence, _) = there.remove(at);
                    silence.into_iter().for_each(|it| silences.remove(network, it));
                    silences.go(network);
                }
                _ => {
                    let network = *dice.of(&networks);
                    silences.come(network);
                    there.push((network, None, connection));
                }
            }
            let open = |network| there.iter().filter(|it| it.0 == network).count();
            let oldest = |network| there.iter().filter(|it| it.0 == network).filter_map(|it| Some((it.1?, it.2))).min();
            for comes in networks {
                let most = networks.into_iter().filter(|&it| oldest(it).is_some()).max_by_key(|&it| (open(it), it));
                let from = most.map(|most| if open(most) > open(comes) { most } else { comes });
                assert_eq!(silences.first(comes), from.and_then(oldest).map(|(_, connection)| connection));
            }
        }
    }

    impl Silences {
        pub fn is_empty(&self) -> bool {
            self.of.is_empty() && self.crowds.is_empty()
        }
    }
}
