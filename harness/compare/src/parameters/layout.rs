//! A set as a call is lent it: every name and sequence a part of one text.

use super::{Energy, Key, Parameters};
use crate::judge::parameters::{Lent, CELLS};
use crate::random::Random;

/// The text of a set while it is laid out.
struct Layout {
    text: Vec<u8>,
}

impl Layout {
    /// Where a part lies: often within what is there, and otherwise behind something else.
    fn part(&mut self, random: &mut Random, part: &[u8]) -> (usize, usize) {
        if part.is_empty() {
            return (random.within(0..=self.text.len()), 0);
        }
        if random.once_in(2) {
            let found = self.text.windows(part.len()).position(|here| here == part);
            if let Some(start) = found {
                return (start, part.len());
            }
        }
        for _ in 0..random.below(3) {
            self.text.push(random.below(256) as u8);
        }
        self.text.extend(part);
        (self.text.len() - part.len(), part.len())
    }

    /// A row of three numbers. Those beside an absent part are not looked at.
    fn perhaps(&mut self, random: &mut Random, part: Option<&[u8]>) -> [usize; 3] {
        let (start, length) = match part {
            Some(part) => self.part(random, part),
            None => (unread(random), unread(random)),
        };
        [usize::from(part.is_some()), start, length]
    }
}

fn unread(random: &mut Random) -> usize {
    random.pick(&[0, 1, 65, 300, 1 << 40, usize::MAX])
}

impl Parameters {
    /// As a call is lent it.
    pub fn laid_out(&self, random: &mut Random) -> Lent {
        let mut layout = Layout { text: vec![] };
        let mut lent = Lent {
            users: self.strands.len(),
            penalty_dg: self.penalty.0,
            penalty_ds: self.penalty.1,
            quencher: self.quencher,
            reporter: self.reporter,
            written: [
                3 * (self.strands.len() + 3),
                self.scaffold.len(),
                CELLS,
                CELLS,
            ],
            ..Lent::default()
        };
        for name in self.strands.iter().flatten() {
            lent.strands.extend(layout.perhaps(random, name.as_deref()));
        }
        for name in &self.scaffold {
            lent.scaffold
                .extend(layout.perhaps(random, name.as_deref()));
        }
        for (key, energy) in &self.entries {
            let (first, second) = match key {
                Key::One(name) => (name, None),
                Key::Pair(first, second) => (first, Some(second.as_slice())),
            };
            let [_, first_start, first_length] = layout.perhaps(random, Some(first));
            let second = layout.perhaps(random, second);
            let (form, dg, ds, (start, length)) = match energy {
                Energy::Given(dg, ds) => (0, *dg, *ds, (unread(random), unread(random))),
                Energy::Sequence(s) => (1, f64::NAN, 1e308, layout.part(random, s)),
            };
            lent.entries.extend([first_start, first_length]);
            lent.entries.extend(second);
            lent.entries.extend([form, start, length]);
            lent.energies.extend([dg, ds]);
        }
        lent.text = layout.text;
        lent
    }
}
