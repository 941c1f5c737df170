//! Windows onto private items of sdc1d.rs.

use super::*;

pub fn r() -> f64 {
    R
}

/// What the entropy is multiplied by in `bond_between_strands`.
pub fn strand_excess(t: Kelvin) -> f64 {
    ((t - Celsius(37.0)).to_celsius() * KcalPerMolKelvin(1.0)).0
}

/// What the entropy is multiplied by in `glue_glue_standard_free_energy`.
pub fn scaffold_excess(t: Kelvin) -> f64 {
    ((t - Celsius(37.0)) * KcalPerMolKelvin(1.0)).0
}

/// A design with everything given, strand 0 included, rather than built by `from_params`.
#[derive(Clone, Default)]
pub struct Given {
    /// One glue for each position.
    pub scaffold: Vec<usize>,
    /// West, bottom and east glue of each strand.
    pub glues: Vec<[usize; 3]>,
    /// One for each strand.
    pub concentrations: Vec<f64>,
    /// The tables are this many rows of this many cells.
    pub glue_count: usize,
    pub dg: Vec<f64>,
    pub ds: Vec<f64>,
    pub kelvin: f64,
}

impl Given {
    /// The Rust's design. Only its `update_system` is run.
    pub fn make(&self) -> SDC {
        let strands = self.glues.len();
        let size = (self.glue_count, self.glue_count);
        let mut strand_glues = Array2::<Glue>::zeros((strands, 3));
        for (strand, glues) in self.glues.iter().enumerate() {
            for (side, glue) in glues.iter().enumerate() {
                strand_glues[(strand, side)] = *glue;
            }
        }
        let mut delta_g_matrix = Array2::<KcalPerMol>::zeros(size);
        let mut entropy_matrix = Array2::<KcalPerMolKelvin>::zeros(size);
        for cell in 0..self.glue_count * self.glue_count {
            let at = (cell / self.glue_count, cell % self.glue_count);
            delta_g_matrix[at] = KcalPerMol(self.dg[cell]);
            entropy_matrix[at] = KcalPerMolKelvin(self.ds[cell]);
        }
        let concentrations: Vec<Molar> = self.concentrations.iter().copied().map(Molar).collect();
        let mut design = SDC {
            strand_names: (0..strands).map(|strand| strand.to_string()).collect(),
            glue_names: vec![String::new(); self.glue_count],
            quencher_id: None,
            quencher_concentration: Molar(0.0),
            reporter_id: None,
            fluorophore_concentration: Molar(0.0),
            scaffold: Array1::from(self.scaffold.clone()),
            strand_concentration: Array1::from(concentrations),
            scaffold_concentration: Molar(1e-7),
            strand_glues,
            colors: vec![[0; 4]; strands],
            kf: PerMolarSecond::new(1e6),
            friends_btm: Vec::new(),
            delta_g_matrix,
            entropy_matrix,
            temperature: Kelvin(self.kelvin),
            strand_energy_bonds: Array2::default((strands, strands)),
            scaffold_energy_bonds: Array2::default((self.scaffold.len(), strands)),
        };
        design.update_system();
        design
    }
}

/// The `rtval` of a design at this temperature.
pub fn rtval(t: Kelvin) -> f64 {
    let nothing = Given {
        glues: vec![[0; 3]],
        concentrations: vec![0.0],
        glue_count: 1,
        dg: vec![0.0],
        ds: vec![0.0],
        kelvin: t.0,
        ..Given::default()
    };
    nothing.make().rtval()
}

/// Rows of a cache of bonds; `None` where a bond was left unset.
pub type Cache = Vec<Vec<Option<f64>>>;

/// Each calls the Rust and nothing else, unless it says so.
impl SDC {
    pub fn p_temperature(&self) -> Kelvin {
        self.temperature
    }

    pub fn p_update_system(&mut self) {
        self.update_system()
    }

    pub fn p_empty_cache(&mut self) {
        self.empty_cache()
    }

    pub fn p_rtval(&self) -> f64 {
        self.rtval()
    }

    pub fn p_strand_bond(&self, x: Tile, y: Tile) -> f64 {
        self.bond_between_strands(x, y)
    }

    pub fn p_scaffold_bond(&self, position: usize, strand: Tile) -> f64 {
        self.bond_with_scaffold(position, strand)
    }

    pub fn p_potential(&self, strand: Tile) -> f64 {
        self.chemical_potential(&strand)
    }

    pub fn p_g_system(&self, configuration: &[u32]) -> f64 {
        self.g_system(configuration)
    }

    pub fn p_mfe_matrix(&self) -> Vec<Vec<(Tile, f64, Tile)>> {
        self.mfe_matrix()
    }

    /// The number of glues, then the dG and the dS table, row first.
    pub fn p_tables(&self) -> (usize, Vec<f64>, Vec<f64>) {
        let count = self.glue_names.len();
        let cells = || (0..count * count).map(|cell| (cell / count, cell % count));
        let dg = cells().map(|at| self.delta_g_matrix[at].0).collect();
        let ds = cells().map(|at| self.entropy_matrix[at].0).collect();
        (count, dg, ds)
    }

    /// West, bottom and east glue.
    pub fn p_glues(&self, strand: usize) -> [usize; 3] {
        [0, 1, 2].map(|side| self.strand_glues[(strand, side)])
    }

    pub fn p_glue_rows(&self) -> usize {
        self.strand_glues.dim().0
    }

    pub fn p_positions(&self) -> usize {
        self.scaffold.len()
    }

    pub fn p_scaffold(&self) -> Vec<usize> {
        self.scaffold()
    }

    pub fn p_concentrations(&self) -> Vec<f64> {
        self.strand_concentration.iter().map(|m| m.0).collect()
    }

    /// Strand and scaffold bonds as `fill_energy_array` fills the two caches.
    pub fn p_filled(&self) -> (Cache, Cache) {
        let mut filled = self.clone();
        filled.empty_cache();
        filled.fill_energy_array();
        let read = |bonds: &Array2<OnceLock<f64>>| {
            let (rows, columns) = bonds.dim();
            let cell = |row, column| bonds[(row, column)].get().copied();
            (0..rows)
                .map(|row| (0..columns).map(|column| cell(row, column)).collect())
                .collect()
        };
        (
            read(&filled.strand_energy_bonds),
            read(&filled.scaffold_energy_bonds),
        )
    }

    /// NOT Rust text: document 01's chain energy, put together from the Rust's own bonds.
    pub fn p_chain_composed(&self, configuration: &[u32]) -> f64 {
        let mut energy = 0.0;
        for (position, strand) in configuration.iter().enumerate() {
            if *strand == 0 {
                continue;
            }
            if position > 0 {
                energy += self.bond_between_strands(configuration[position - 1], *strand);
            }
            energy += self.bond_with_scaffold(position, *strand);
            energy -= self.chemical_potential(strand);
        }
        energy
    }
}
