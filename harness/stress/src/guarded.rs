//! Slices and numbers that are lent to be written, between guards.

use mujplesten as mj;

const GUARD: usize = 64;

pub struct Guarded<T> {
    all: Vec<T>,
    held: T,
}

impl<T: Copy + PartialEq> Guarded<T> {
    pub fn new(length: usize, held: T) -> Self {
        Guarded {
            all: vec![held; length + 2 * GUARD],
            held,
        }
    }

    pub fn lent(&mut self) -> &mut [T] {
        let end = self.all.len() - GUARD;
        &mut self.all[GUARD..end]
    }

    /// The guards hold what they held; on a refusal so does all between them.
    pub fn is_fit(&self, number: u32) -> bool {
        let end = self.all.len() - GUARD;
        let kept = |part: &[T]| part.iter().all(|entry| *entry == self.held);
        let between = &self.all[GUARD..end];
        kept(&self.all[..GUARD]) && kept(&self.all[end..]) && (number == 0 || kept(between))
    }
}

/// A number that a call writes in every case. Before the call it holds what no call answers.
pub struct Figure<T>(Guarded<T>);

impl Figure<f64> {
    pub fn double() -> Self {
        Figure(Guarded::new(1, -1.25e-77))
    }
}

impl Figure<u32> {
    pub fn digits() -> Self {
        Figure(Guarded::new(1, 0xa5a5_a5a5))
    }
}

impl Figure<i32> {
    pub fn power() -> Self {
        Figure(Guarded::new(1, i32::MIN + 0xa5))
    }
}

impl Figure<u64> {
    pub fn whole() -> Self {
        Figure(Guarded::new(1, 0xa5a5_a5a5_a5a5_a5a5))
    }

    /// A place: none where the call is answered.
    pub fn is_place(&self, number: u32) -> bool {
        self.is_written() && (number != 0 || self.told() == mj::NOWHERE)
    }
}

impl<T: Copy + PartialEq + Default> Figure<T> {
    pub fn lent(&mut self) -> &mut T {
        &mut self.0.lent()[0]
    }

    pub fn told(&self) -> T {
        self.0.all[GUARD]
    }

    fn is_written(&self) -> bool {
        self.0.is_fit(0) && self.told() != self.0.held
    }

    /// A figure: 0 on a refusal.
    pub fn is_fit(&self, number: u32) -> bool {
        self.is_written() && (number == 0 || self.told() == T::default())
    }
}

#[cfg(test)]
mod tests {
    use super::*;

    #[test]
    fn a_write_beside_the_slice_is_seen() {
        let mut guarded = Guarded::new(3, 0xa5u8);
        assert!(guarded.is_fit(1));
        guarded.lent()[1] = 0;
        assert!(guarded.is_fit(0) && !guarded.is_fit(1));
        guarded.all[GUARD + 3] = 0;
        assert!(!guarded.is_fit(0));
    }

    #[test]
    fn a_figure_that_was_not_written_is_seen() {
        let mut figure = Figure::whole();
        assert!(!figure.is_fit(0) && !figure.is_fit(1) && !figure.is_place(1));
        *figure.lent() = 3;
        assert!(figure.is_fit(0) && !figure.is_fit(1));
        assert!(figure.is_place(14) && !figure.is_place(0));
        figure.0.all[GUARD + 1] = 0;
        assert!(!figure.is_fit(0));
    }
}
