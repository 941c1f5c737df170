//! How far the two energies of a configuration part, as the port answers them: document 02 allows
//! the state energy 2⁻¹⁶ kcal/mol from RT times the chain energy.

use std::cell::RefCell;

const ALLOWED: f64 = 1.0 / 65536.0;

#[derive(Default)]
pub struct Parting {
    seen: RefCell<Seen>,
}

#[derive(Default)]
struct Seen {
    /// The configuration whose state energy was answered last, and that energy.
    state: Option<(String, f64)>,
    pairs: u64,
    largest: f64,
}

impl Parting {
    /// An answer of the port: the chain energy of a configuration follows on its state energy.
    pub fn see(&self, line: &str, figures: &str) {
        let mut seen = self.seen.borrow_mut();
        if let Some(word) = line.strip_prefix("gsys ") {
            seen.state = double(figures).map(|energy| (word.to_string(), energy));
        } else if let Some(word) = line.strip_prefix("raw.chain ") {
            let product = figures.split(' ').nth(1).and_then(double);
            let state = seen.state.take().filter(|(of, _)| of == word);
            if let (Some((_, energy)), Some(product)) = (state, product) {
                seen.pairs += 1;
                seen.largest = seen.largest.max((energy - product).abs());
            }
        }
    }

    /// As a line of the run, or what is wrong with it.
    pub fn said(&self) -> Result<String, String> {
        let seen = self.seen.borrow();
        let (pairs, largest) = (seen.pairs, seen.largest);
        let said = format!(
            "state energy and RT times chain energy at most {largest:e} apart, of {pairs} states; \
             2^-16 is {ALLOWED:e}"
        );
        match pairs > 0 && largest <= ALLOWED {
            true => Ok(said),
            false => Err(said),
        }
    }
}

fn double(bits: &str) -> Option<f64> {
    u64::from_str_radix(bits, 16).ok().map(f64::from_bits)
}

#[cfg(test)]
mod tests {
    use super::*;
    use protocol::bits;

    /// Of document 02's kind: −0.1 and −0.10000000000000003.
    #[test]
    fn the_largest_difference_is_kept() {
        let parting = Parting::default();
        assert!(parting.said().is_err());
        parting.see("gsys 1,2", "bfb999999999999c");
        parting.see("raw.chain 1,2", "bfb999999999999a bfb999999999999a");
        parting.see("gsys 0,2", &bits(1.0));
        parting.see("raw.chain 1,2", &format!("{} {}", bits(2.0), bits(2.0)));
        let said = parting.said().unwrap();
        assert!(
            said.contains("at most 2.7755575615628914e-17 apart, of 1 states"),
            "{said}"
        );
        parting.see("gsys 1", &bits(1.0));
        parting.see("raw.chain 1", &format!("{} {}", bits(1.5), bits(1.5)));
        assert!(parting.said().is_err());
    }
}
