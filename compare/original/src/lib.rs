//! The Rust, unchanged: files are included from the folder named by HUSZMAGO_RUST_SRC when this crate is
//! compiled. Project files that are not there are the stubs below, which hold what the included files name.

#![allow(
    dead_code,
    unused_imports,
    unused_variables,
    unexpected_cfgs,
    private_interfaces
)]

macro_rules! unchanged {
    ($path:literal) => {
        include!(concat!(env!("HUSZMAGO_RUST_SRC"), "/src/", $path));
    };
}

pub mod compare_floats {
    unchanged!("compare_floats.rs");
}

pub mod core {
    pub mod common {
        unchanged!("core/common.rs");
    }

    pub mod material_properties {
        unchanged!("core/material_properties.rs");
    }

    pub mod simulation_time {
        unchanged!("core/simulation_time.rs");
    }

    pub mod units {
        unchanged!("core/units.rs");
    }

    pub mod heating_systems {
        pub mod storage_tank {
            unchanged!("core/heating_systems/storage_tank.rs");

            /// A child module, so that it may see what is private above.
            pub mod probe {
                include!("probe.rs");
            }

            /// Likewise.
            pub mod timed {
                include!("timed.rs");
            }
        }

        pub mod primary_pipework_losses_mixin {
            use crate::core::pipework::Pipework;
            use crate::core::simulation_time::Timestep;
            use crate::corpus::TempInternalAirFn;
            use std::sync::Arc;

            /// No pipework: an immersion heater has none.
            #[derive(Debug)]
            pub struct PrimaryPipeworkLossesMixin;

            impl PrimaryPipeworkLossesMixin {
                pub fn new(
                    pipework: Vec<Pipework>,
                    _external: Arc<dyn Fn(Timestep) -> f64 + Send + Sync>,
                    _internal: TempInternalAirFn,
                    _timestep: Timestep,
                ) -> Self {
                    assert!(pipework.is_empty());
                    PrimaryPipeworkLossesMixin
                }

                pub fn calculate_primary_pipework_losses(
                    &self,
                    _energy: f64,
                    _temp_flow: Option<f64>,
                    _update: Option<bool>,
                    _timestep: Timestep,
                ) -> anyhow::Result<(f64, f64)> {
                    unreachable!("an immersion heater has no pipework")
                }
            }
        }

        pub mod wwhrs {
            use crate::core::simulation_time::Timestep;

            #[derive(Clone, Debug)]
            pub struct WwhrsInstantaneous;

            impl WwhrsInstantaneous {
                pub fn get_temp_cold_water(
                    &self,
                    _volume: f64,
                    _simtime: Timestep,
                ) -> anyhow::Result<Vec<(f64, f64)>> {
                    unreachable!("the feed is a cold water source")
                }

                pub fn draw_off_water(
                    &self,
                    _volume: f64,
                    _simtime: Timestep,
                ) -> anyhow::Result<Vec<(f64, f64)>> {
                    unreachable!("the feed is a cold water source")
                }
            }
        }
    }

    pub mod water_heat_demand {
        pub mod misc {
            unchanged!("core/water_heat_demand/misc.rs");
        }

        pub mod dhw_demand {
            pub enum OutletType {
                Shower,
                Bath,
                Other,
            }
        }

        pub mod cold_water_source {
            use crate::core::simulation_time::Timestep;
            use atomic_float::AtomicF64;
            use std::sync::atomic::Ordering;

            /// 01: answers one pair, (feed temperature, volume wanted), to both of its calls.
            #[derive(Debug, Default)]
            pub struct ColdWaterSource {
                pub feed: AtomicF64,
            }

            impl ColdWaterSource {
                pub fn get_temp_cold_water(
                    &self,
                    volume: f64,
                    _simtime: Timestep,
                ) -> anyhow::Result<Vec<(f64, f64)>> {
                    recorder::cold_asked();
                    let folded = recorder::wrong() == recorder::COLD_IS_FEED;
                    Ok(vec![(
                        self.feed.load(Ordering::SeqCst),
                        if folded { 1.0 } else { volume },
                    )])
                }

                pub fn draw_off_water(
                    &self,
                    volume: f64,
                    _simtime: Timestep,
                ) -> anyhow::Result<Vec<(f64, f64)>> {
                    recorder::cold_asked();
                    let folded = recorder::wrong() == recorder::COLD_IS_FEED && recorder::refilling();
                    Ok(vec![(
                        self.feed.load(Ordering::SeqCst),
                        if folded { 1.0 } else { volume },
                    )])
                }
            }
        }
    }

    pub mod controls {
        pub mod time_control {
            use crate::core::simulation_time::Timestep;
            use std::sync::{Arc, Mutex};

            /// Yields the set points that the step was given, whatever the time. The control is on.
            #[derive(Clone, Debug, Default)]
            pub struct CompositeRangeTimeControl {
                pub set_points: Arc<Mutex<(Option<f64>, Option<f64>)>>,
            }

            impl CompositeRangeTimeControl {
                pub fn setpnt(&self, _timestep: Timestep) -> (Option<f64>, Option<f64>) {
                    *self.set_points.lock().unwrap()
                }

                pub fn assume_system_on(&self, _timestep: Timestep) -> bool {
                    recorder::control_asked();
                    true
                }
            }

            #[derive(Clone, Debug)]
            pub struct SetpointTimeControl;

            impl SetpointTimeControl {
                pub fn setpnt(&self, _timestep: Timestep) -> Option<f64> {
                    unreachable!("smart tanks are left out")
                }
            }

            #[derive(Clone, Debug)]
            pub struct Control;

            /// The diverter's own set point, and the solar system's.
            #[derive(Clone, Debug)]
            pub struct SetpointOrCombinationControl {
                pub set_point: Option<f64>,
            }

            impl SetpointOrCombinationControl {
                pub fn setpnt(&self, _timestep: Timestep) -> Option<f64> {
                    self.set_point
                }
            }

            impl From<Control> for Option<SetpointOrCombinationControl> {
                fn from(_control: Control) -> Self {
                    None
                }
            }
        }
    }

    pub mod energy_supply {
        pub mod energy_supply {
            #[derive(Clone, Debug)]
            pub struct EnergySupplyConnection;

            impl EnergySupplyConnection {
                pub fn demand_energy(&self, energy: f64, _timestep: usize) -> anyhow::Result<()> {
                    recorder::supplied(energy);
                    Ok(())
                }
            }
        }
    }

    pub mod external_conditions {
        use crate::core::simulation_time::Timestep;
        use crate::core::units::Orientation360;

        #[derive(Debug)]
        pub struct ExternalConditions;

        impl ExternalConditions {
            pub fn air_temp(&self, _timestep: Timestep) -> f64 {
                unreachable!("no pipework and no solar system asks for it")
            }

            pub fn calculated_total_solar_irradiance(
                &self,
                _tilt: f64,
                _orientation: Orientation360,
                _timestep: Timestep,
            ) -> f64 {
                unreachable!("solar systems are left out")
            }
        }
    }

    pub mod pipework {
        use crate::input::WaterPipework;

        #[derive(Debug)]
        pub struct Pipework;

        impl TryFrom<WaterPipework> for Pipework {
            type Error = String;
            fn try_from(_input: WaterPipework) -> Result<Self, String> {
                unreachable!("pipework is left out")
            }
        }
    }
}

pub mod corpus {
    use crate::core::common::WaterSupply;
    use crate::core::heating_systems::storage_tank::HeatSourceWithStorageTank;
    use crate::core::simulation_time::Timestep;
    use crate::core::water_heat_demand::misc::WaterEventResult;
    use std::sync::Arc;

    pub type TempInternalAirFn = Arc<dyn Fn() -> f64 + Send + Sync>;

    #[derive(Clone, Debug)]
    pub enum HeatSource {
        Storage(HeatSourceWithStorageTank),
        Wet(WetHeatSource),
    }

    impl HeatSource {
        pub fn setpnt(&self, simtime: Timestep) -> anyhow::Result<(Option<f64>, Option<f64>)> {
            recorder::set_points_read();
            match self {
                HeatSource::Storage(HeatSourceWithStorageTank::Immersion(heater)) => {
                    Ok(heater.lock().setpnt(simtime))
                }
                HeatSource::Storage(HeatSourceWithStorageTank::Solar(solar)) => {
                    Ok(solar.lock().setpnt(simtime))
                }
                HeatSource::Wet(_) => unreachable!("wet heat sources are left out"),
            }
        }
    }

    #[derive(Clone, Debug)]
    pub struct WetHeatSource;

    impl WetHeatSource {
        pub fn energy_output_max(
            &self,
            _temp_flow: f64,
            _temp_return: f64,
            _ignore_control: Option<bool>,
            _simtime: Timestep,
        ) -> anyhow::Result<f64> {
            unreachable!("wet heat sources are left out")
        }

        pub fn demand_energy(
            &self,
            _energy: f64,
            _temp_flow: Option<f64>,
            _temp_return: Option<f64>,
            _ignore_control: Option<bool>,
            _simtime: Timestep,
        ) -> anyhow::Result<f64> {
            unreachable!("wet heat sources are left out")
        }
    }

    pub trait HotWaterSourceBehaviour {
        fn get_cold_water_source(&self) -> WaterSupply;
        fn demand_hot_water(
            &self,
            usage_events: Vec<WaterEventResult>,
            simtime: Timestep,
        ) -> anyhow::Result<f64>;
        fn get_temp_hot_water(
            &self,
            volume_required: f64,
            volume_required_already: f64,
            simtime: Timestep,
        ) -> anyhow::Result<Vec<(f64, f64)>>;
        fn internal_gains(&self) -> Option<f64>;
        fn get_losses_from_primary_pipework_and_storage(&self) -> (f64, f64);
        fn is_point_of_use(&self) -> bool;
    }
}

pub mod input {
    #[derive(Clone, Copy, Debug)]
    pub enum SolarCollectorLoopLocation {
        Hs,
        Nhs,
        Out,
    }

    #[derive(Clone, Debug)]
    pub struct WaterPipework;
}

/// A cell of the detailed output.
#[derive(Clone, Debug, PartialEq)]
pub enum StringOrNumber {
    String(String),
    Float(f64),
    Integer(u32),
}

impl From<&str> for StringOrNumber {
    fn from(text: &str) -> Self {
        StringOrNumber::String(text.into())
    }
}

impl From<String> for StringOrNumber {
    fn from(text: String) -> Self {
        StringOrNumber::String(text)
    }
}

impl From<f64> for StringOrNumber {
    fn from(number: f64) -> Self {
        StringOrNumber::Float(number)
    }
}

impl From<&f64> for StringOrNumber {
    fn from(number: &f64) -> Self {
        StringOrNumber::Float(*number)
    }
}

impl From<u32> for StringOrNumber {
    fn from(number: u32) -> Self {
        StringOrNumber::Integer(number)
    }
}

pub use crate::core::heating_systems::storage_tank::{probe, timed};
