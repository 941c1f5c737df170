//! Document 01, "Bonds, friends, states", read once more, with the places that document 02 gives:
//! refusals and answers of every call that takes a design, from the documents alone.

use super::logarithm::is_dilute;
use super::{out_of_range, Holds, Verdict};

const MOST_POSITIONS: usize = 128;
const MOST_STRANDS: usize = 64;
const GLUES: usize = 64;
pub const CELLS: usize = GLUES * GLUES;
pub const FRIENDS_LENT: usize = 64;
pub const MOST_STATES: u128 = 1_048_576;

/// What a design's amounts may be given as.
pub const POTENTIALS: u32 = 0;
pub const CONCENTRATIONS: u32 = 1;

/// What a call is lent: slices of any length and content, and the ambient.
#[derive(Debug, Clone, Default)]
pub struct Lent {
    pub scaffold: Vec<u8>,
    /// Of each position: 0 open, 1 blocked.
    pub marks: Vec<u8>,
    /// West, bottom, east of each strand.
    pub glues: Vec<u8>,
    pub dg: Vec<f64>,
    pub ds: Vec<f64>,
    /// One for each strand. Where concentrations are given, the port's logarithms of those that are
    /// read, whose last bits document 02 leaves open.
    pub potentials: Vec<f64>,
    /// One for each strand, lent in place of the potentials where they are given.
    pub concentrations: Vec<f64>,
    /// How the strands' amounts are given: `POTENTIALS` or `CONCENTRATIONS`.
    pub given: u32,
    pub rt: f64,
    pub strand_excess: f64,
    pub scaffold_excess: f64,
}

impl Lent {
    /// With another scaffold, all of it open.
    pub fn open(&mut self, scaffold: Vec<u8>) {
        self.marks = vec![0; scaffold.len()];
        self.scaffold = scaffold;
    }

    /// The design whose blocked positions have no glue. A position without a glue has no friends
    /// where 10 does not hold, so it answers as the design does in all but scaffold bonds.
    pub fn without_blocked(&self) -> Self {
        let mut copy = self.clone();
        for (glue, mark) in copy.scaffold.iter_mut().zip(&self.marks) {
            *glue *= 1 - mark;
        }
        copy.marks.fill(0);
        copy
    }

    pub fn has_blocked(&self) -> bool {
        self.marks.contains(&1)
    }

    /// What is lent for the strands, a number each.
    pub fn amounts(&self) -> &[f64] {
        match self.given {
            CONCENTRATIONS => &self.concentrations,
            _ => &self.potentials,
        }
    }
}

/// Refusals. Each call has conditions of its own beside those of the design.
impl Lent {
    /// "Every call that takes a design checks all of it." Nothing else can be looked up while a
    /// size is wrong, and 1 is the lowest number. Of all other conditions each is asked by itself,
    /// whatever the others say: the lowest that holds gives number and place.
    pub(super) fn verdict(
        &self,
        own_size: bool,
        own: impl FnOnce() -> Vec<(u32, bool)>,
    ) -> Verdict {
        if own_size || self.wrong_sizes() {
            return Verdict::lowest(&[(1, true)]);
        }
        let mut conditions = vec![
            (9, self.bad_cell()),
            (10, self.null_binds().into()),
            (15, self.has_dilute().into()),
            (16, self.bad_ambient()),
            (17, self.bad_potential()),
        ];
        let own = own().into_iter();
        conditions.extend(own.map(|(number, holds)| (number, holds.into())));
        Verdict::lowest(&conditions)
    }

    pub fn strand_bond_verdict(&self, x: usize, y: usize) -> Verdict {
        self.verdict(x.max(y) >= self.strands(), Vec::new)
    }

    pub fn scaffold_bond_verdict(&self, position: usize, strand: usize) -> Verdict {
        let absent = position >= self.positions() || strand >= self.strands();
        self.verdict(absent, Vec::new)
    }

    pub fn friends_verdict(&self, position: usize, lent: usize) -> Verdict {
        let wrong = position >= self.positions() || lent != FRIENDS_LENT;
        self.verdict(wrong, Vec::new)
    }

    pub fn count_verdict(&self) -> Verdict {
        self.verdict(false, || vec![(12, self.count() > MOST_STATES)])
    }

    pub fn state_verdict(&self, rank: u64, lent: usize) -> Verdict {
        self.verdict(lent != self.positions(), || {
            let count = self.count();
            vec![(12, count > MOST_STATES), (13, u128::from(rank) >= count)]
        })
    }

    /// Of the search: never 12.
    pub fn search_verdict(&self, lent: usize) -> Verdict {
        self.verdict(lent != self.positions(), Vec::new)
    }

    /// Of the state energy and of the chain energy.
    pub fn energy_verdict(&self, configuration: &[u8]) -> Verdict {
        self.verdict(configuration.len() != self.positions(), || {
            vec![(11, self.has_stranger(configuration))]
        })
    }

    /// Neither 0 nor a friend at some position.
    pub(super) fn has_stranger(&self, configuration: &[u8]) -> bool {
        let stranger = |(position, occupant): (usize, &u8)| {
            *occupant != 0 && !self.friends(position).contains(occupant)
        };
        configuration.iter().enumerate().any(stranger)
    }

    fn wrong_sizes(&self) -> bool {
        let strands = self.strands();
        let high = |glue: &u8| usize::from(*glue) >= GLUES;
        self.positions() > MOST_POSITIONS
            || !(1..=MOST_STRANDS).contains(&strands)
            || self.glues.len() != 3 * strands
            || self.dg.len() != CELLS
            || self.ds.len() != CELLS
            || self.scaffold.iter().any(high)
            || self.marks.len() != self.positions()
            || self.marks.iter().any(|mark| *mark > 1)
            || ![POTENTIALS, CONCENTRATIONS].contains(&self.given)
            || self.glues.iter().any(high)
    }

    /// "The lowest bad cell, 64 × row + column in dG, 4,096 more in dS."
    fn bad_cell(&self) -> Holds {
        let dg = self.dg.iter().map(|x| out_of_range(*x, -1024.0, 1024.0));
        let ds = self.ds.iter().map(|x| out_of_range(*x, -8.0, 8.0));
        Holds::first(dg.chain(ds))
    }

    /// "0, 1 or 2 for the first that is out in the order RT, strand excess, scaffold excess."
    fn bad_ambient(&self) -> Holds {
        let ambient = [
            out_of_range(self.rt, 0.125, 8.0),
            out_of_range(self.strand_excess, -1024.0, 1024.0),
            out_of_range(self.scaffold_excess, -1024.0, 1024.0),
        ];
        Holds::first(ambient.into_iter())
    }

    /// "Only potentials of strands that are somewhere friends are read or checked": the lowest such
    /// strand. Strand 0 is asked like any other; where it is a friend, 10 comes first. A concentration
    /// that "gets a new number no longer gives an older one", and no other's logarithm is out.
    fn bad_potential(&self) -> Holds {
        let unfit = |strand: usize| out_of_range(self.potentials[strand], -1024.0, 1024.0);
        let at_fault = |strand| unfit(strand) && self.is_somewhere_friend(strand);
        match self.given {
            CONCENTRATIONS => Holds::No,
            _ => Holds::first((0..self.strands()).map(at_fault)),
        }
    }

    /// "The strands that are nowhere friends are not looked at."
    fn has_dilute(&self) -> bool {
        let at_fault = |strand: usize| {
            is_dilute(self.concentrations[strand]) && self.is_somewhere_friend(strand)
        };
        self.given == CONCENTRATIONS && (0..self.strands()).any(at_fault)
    }

    fn null_binds(&self) -> bool {
        let glued = self.glues[..3].iter().any(|glue| *glue != 0);
        glued || (0..GLUES).any(|glue| self.binds(0, glue) || self.binds(glue, 0))
    }
}

/// Answers of a design that is not refused.
impl Lent {
    pub fn positions(&self) -> usize {
        self.scaffold.len()
    }

    /// Strand 0 included.
    pub fn strands(&self) -> usize {
        self.amounts().len()
    }

    fn side(&self, strand: usize, side: usize) -> usize {
        usize::from(self.glues[3 * strand + side])
    }

    /// "dG or dS at that cell is nonzero"; a zero of either sign is zero.
    fn binds(&self, row: usize, column: usize) -> bool {
        let cell = row * GLUES + column;
        self.dg[cell] != 0.0 || self.ds[cell] != 0.0
    }

    /// "A blocked position has no friends."
    fn is_friend(&self, position: usize, strand: usize) -> bool {
        let glue = usize::from(self.scaffold[position]);
        self.marks[position] == 0 && self.binds(glue, self.side(strand, 1))
    }

    pub fn is_somewhere_friend(&self, strand: usize) -> bool {
        (0..self.positions()).any(|position| self.is_friend(position, strand))
    }

    fn bond(&self, row: usize, column: usize, excess: f64) -> f64 {
        let cell = row * GLUES + column;
        (self.dg[cell] - excess * self.ds[cell]) / self.rt
    }

    pub fn strand_bond(&self, x: usize, y: usize) -> f64 {
        self.bond(self.side(x, 2), self.side(y, 0), self.strand_excess)
    }

    pub fn scaffold_bond(&self, position: usize, strand: usize) -> f64 {
        let glue = usize::from(self.scaffold[position]);
        self.bond(glue, self.side(strand, 1), self.scaffold_excess)
    }

    pub fn friends(&self, position: usize) -> Vec<u8> {
        let strands = (0..self.strands()).filter(|strand| self.is_friend(position, *strand));
        strands.map(|strand| strand as u8).collect()
    }

    /// A product of 128 numbers of at most 65 can leave any machine number, and then it is far
    /// beyond the limit.
    pub fn count(&self) -> u128 {
        let options = (0..self.positions()).map(|position| self.friends(position).len() + 1);
        options.fold(1, |count, options| count.saturating_mul(options as u128))
    }

    /// "Friends in order, then 0, last position fastest."
    pub fn state(&self, rank: u64) -> Vec<u8> {
        let mut state = vec![0; self.positions()];
        let mut rest = rank as usize;
        for position in (0..self.positions()).rev() {
            let mut options = self.friends(position);
            options.push(0);
            state[position] = options[rest % options.len()];
            rest /= options.len();
        }
        state
    }

    pub fn state_energy(&self, configuration: &[u8]) -> f64 {
        self.state_energy_over(self, configuration)
    }

    pub fn state_energy_over(&self, bonds: &dyn Bonds, configuration: &[u8]) -> f64 {
        let mut sum = 0.0;
        for (position, strand) in occupied(configuration) {
            sum += bonds.site(position, strand);
            if let Some(right) = configuration.get(position + 1) {
                sum += bonds.pair(strand, usize::from(*right));
            }
            sum -= self.potentials[strand];
        }
        sum * self.rt
    }

    /// The bare sum.
    pub fn chain_energy(&self, configuration: &[u8]) -> f64 {
        self.chain_energy_over(self, configuration)
    }

    pub fn chain_energy_over(&self, bonds: &dyn Bonds, configuration: &[u8]) -> f64 {
        let mut sum = 0.0;
        for (position, strand) in occupied(configuration) {
            if position > 0 {
                sum += bonds.pair(usize::from(configuration[position - 1]), strand);
            }
            sum += bonds.site(position, strand);
            sum -= self.potentials[strand];
        }
        sum
    }

    /// "It starts at the state of rank 0, with RT times its chain energy as the least"; a product
    /// that is smaller becomes the least.
    pub fn walk(&self) -> f64 {
        self.walk_over(self)
    }

    pub fn walk_over(&self, bonds: &dyn Bonds) -> f64 {
        self.least(|state| self.chain_energy_over(bonds, state) * self.rt)
    }

    /// The least figure of all states.
    pub(super) fn least(&self, figure: impl Fn(&[u8]) -> f64) -> f64 {
        let of_rank = |rank| figure(&self.state(rank));
        let rest = (1..self.count() as u64).map(of_rank);
        rest.fold(
            of_rank(0),
            |least, next| if next < least { next } else { least },
        )
    }
}

/// The bonds that energies are summed over: a design's own, or those of tables beside it.
pub trait Bonds {
    /// From a strand to the one at its east.
    fn pair(&self, x: usize, y: usize) -> f64;
    /// From the scaffold at a position to a strand.
    fn site(&self, position: usize, strand: usize) -> f64;
}

impl Bonds for Lent {
    fn pair(&self, x: usize, y: usize) -> f64 {
        self.strand_bond(x, y)
    }

    fn site(&self, position: usize, strand: usize) -> f64 {
        self.scaffold_bond(position, strand)
    }
}

/// The places that are not empty, with their occupants.
fn occupied(configuration: &[u8]) -> impl Iterator<Item = (usize, usize)> + '_ {
    let places = configuration.iter().map(|strand| usize::from(*strand));
    places.enumerate().filter(|(_, strand)| *strand != 0)
}

#[cfg(test)]
pub(crate) mod tests;
