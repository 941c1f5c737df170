//! Modules of rgrow that are not among its four files here, as far as these name them.
//! Simulation is outside the port: whatever would run it is unimplemented.

pub mod base {
    pub type Tile = u32;
    pub type Glue = usize;

    #[derive(Debug)]
    pub enum GrowError {
        WrongParameterType(String),
        NoParameter(String),
    }
}

pub mod canvas {
    #[derive(Debug, Clone, Copy)]
    pub struct PointSafe2(pub (usize, usize));

    #[derive(Debug, Clone, Copy)]
    pub struct PointSafeHere(pub (usize, usize));
}

pub mod colors {
    use crate::base::GrowError;

    /// `from_params` asks for colours, which are outside the port: every colour is black.
    pub fn get_color_or_random(_: Option<&str>) -> Result<[u8; 4], GrowError> {
        Ok([0, 0, 0, 255])
    }
}

pub mod tileset {
    pub enum CanvasType {
        Square,
    }

    #[derive(Default)]
    pub struct TrackingConfig;
}

pub mod state {
    use crate::base::{GrowError, Tile};
    use crate::canvas::{PointSafe2, PointSafeHere};
    use crate::tileset::{CanvasType, TrackingConfig};
    use crate::units::PerSecond;

    pub trait State: std::fmt::Debug {
        fn nrows_usable(&self) -> usize {
            unimplemented!()
        }
        fn nrows(&self) -> usize {
            unimplemented!()
        }
        fn ncols(&self) -> usize {
            unimplemented!()
        }
        fn inbounds(&self, _: (usize, usize)) -> bool {
            unimplemented!()
        }
        fn move_sa_w(&self, _: PointSafe2) -> PointSafeHere {
            unimplemented!()
        }
        fn move_sa_e(&self, _: PointSafe2) -> PointSafeHere {
            unimplemented!()
        }
        fn tile_at_point(&self, _: PointSafe2) -> Tile {
            unimplemented!()
        }
        fn tile_to_w(&self, _: PointSafe2) -> Tile {
            unimplemented!()
        }
        fn tile_to_e(&self, _: PointSafe2) -> Tile {
            unimplemented!()
        }
        fn count_of_tile(&self, _: Tile) -> u32 {
            unimplemented!()
        }
        fn update_attachment(&mut self, _: Tile) {
            unimplemented!()
        }
        fn update_detachment(&mut self, _: Tile) {
            unimplemented!()
        }
        fn update_multiple(&mut self, _: &[(PointSafeHere, PerSecond)]) {
            unimplemented!()
        }
        fn set_sa(&mut self, _: &PointSafe2, _: &Tile) {
            unimplemented!()
        }
        fn raw_array(&self) -> Vec<Tile> {
            unimplemented!()
        }
    }

    #[derive(Debug)]
    pub struct StateEnum;

    impl State for StateEnum {}

    impl StateEnum {
        pub fn empty(
            _: (usize, usize),
            _: CanvasType,
            _: &TrackingConfig,
            _: usize,
        ) -> Result<Self, GrowError> {
            unimplemented!()
        }
    }
}

pub mod system {
    use crate::base::{GrowError, Tile};
    use crate::canvas::{PointSafe2, PointSafeHere};
    use crate::state::State;
    use crate::units::PerSecond;
    use std::any::Any;

    #[derive(Debug)]
    pub enum Event {
        None,
        MonomerAttachment(PointSafe2, Tile),
        MonomerDetachment(PointSafe2),
        MonomerChange(PointSafe2, Tile),
        Other,
    }

    #[derive(Default, Clone, Copy)]
    pub struct EvolveBounds;

    impl EvolveBounds {
        pub fn for_time(self, _: f64) -> Self {
            self
        }
    }

    pub enum NeededUpdate {
        NonZero,
    }

    pub struct ParameterInfo {
        pub name: String,
        pub units: String,
        pub default_increment: f64,
        pub min_value: Option<f64>,
        pub max_value: Option<f64>,
        pub description: Option<String>,
        pub current_value: f64,
    }

    pub trait System {
        fn update_after_event<St: State>(&self, state: &mut St, event: &Event);
        fn perform_event<St: State>(&self, state: &mut St, event: &Event) -> f64;
        fn event_rate_at_point<St: State>(&self, state: &St, p: PointSafeHere) -> PerSecond;
        fn choose_event_at_point<St: State>(
            &self,
            state: &St,
            p: PointSafe2,
            acc: PerSecond,
        ) -> (Event, f64);
        fn seed_locs(&self) -> Vec<(PointSafe2, Tile)>;
        fn calc_mismatch_locations<St: State>(&self, state: &St)
            -> ndarray::prelude::Array2<usize>;
        fn set_param(&mut self, name: &str, value: Box<dyn Any>)
            -> Result<NeededUpdate, GrowError>;
        fn get_param(&self, name: &str) -> Result<Box<dyn Any>, GrowError>;
        fn list_parameters(&self) -> Vec<ParameterInfo>;
        fn system_info(&self) -> String;
        fn update_state<St: State>(&self, _: &mut St, _: &NeededUpdate) {
            unimplemented!()
        }
        fn evolve<St: State>(&self, _: &mut St, _: EvolveBounds) -> Result<(), GrowError> {
            unimplemented!()
        }
    }

    pub trait TileBondInfo {
        fn tile_colors(&self) -> &Vec<[u8; 4]>;
        fn tile_names(&self) -> &[String];
        fn bond_names(&self) -> &[String];
    }
}
