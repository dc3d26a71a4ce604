// `StorageTank` as a record: made by its own `new`, stepped by its own `demand_hot_water`, its private
// figures read and put back.
//
// Nothing here works out a figure. Numbers that are not handed out come from the detailed output
// (`testoutput`, last heater only), from private fields, or from the recorder's stand-ins.

use super::*;
use crate::core::controls::time_control::CompositeRangeTimeControl;
use crate::core::water_heat_demand::cold_water_source::ColdWaterSource;
use crate::core::water_heat_demand::misc::WaterEventResultType;
use recorder::{MixedTooLong, Turn};
use std::cell::RefCell;
use std::panic::{catch_unwind, AssertUnwindSafe};

/// What a tank is made of.
#[derive(Clone, Copy, Debug, PartialEq)]
pub struct Making {
    pub layers: usize,
    pub volume: f64,
    pub standby: f64,
    pub initial: f64,
    pub density: f64,
    pub specific_heat: f64,
    pub ambient: f64,
    pub step: f64,
}

#[derive(Clone, Copy, Debug, PartialEq)]
pub struct Heater {
    pub rated: f64,
    pub position: f64,
    pub thermostat: Option<f64>,
}

/// Lower and upper.
pub type SetPoints = (Option<f64>, Option<f64>);

/// What moves from step to step: the layers, and the flags in the given order.
#[derive(Clone, Debug, PartialEq)]
pub struct State {
    pub layers: Vec<f64>,
    pub flags: Vec<bool>,
}

/// What one call of `demand_hot_water` gave.
#[derive(Clone, Debug)]
pub struct Stepped {
    pub energy: f64,
    pub volume_used: f64,
    pub average: f64,
    pub recoverable: f64,
    pub state: State,
    /// In working order.
    pub turns: Vec<Turn>,
    pub event_rounds: Vec<u64>,
    /// Every layer list that the tank was given on the way was finite.
    pub layers_finite: bool,
}

/// Why there is no answer.
#[derive(Clone, Debug, PartialEq)]
pub enum Failed {
    /// The mixing went past every limit and was stopped.
    MixedTooLong,
    Panicked(String),
    Erred(String),
}

pub struct Tank {
    pub(super) tank: StorageTank,
    pub(super) feed: Arc<ColdWaterSource>,
    pub(super) controls: Vec<CompositeRangeTimeControl>,
    names: Vec<ArcStr>,
    order: Vec<usize>,
    pub(super) timestep: Timestep,
}

thread_local! {
    static LAST_PANIC: RefCell<String> = const { RefCell::new(String::new()) };
}

/// Panics are answers here: keep their words and print nothing.
pub fn quiet_panics() {
    std::panic::set_hook(Box::new(|info| {
        let words = match info.payload().downcast_ref::<&str>() {
            Some(text) => text.to_string(),
            None => match info.payload().downcast_ref::<String>() {
                Some(text) => text.clone(),
                None => "no words".to_string(),
            },
        };
        LAST_PANIC.set(words);
    }));
}

/// The words of the last panic.
pub fn last_panic() -> String {
    LAST_PANIC.take()
}

fn guarded<T>(work: impl FnOnce() -> anyhow::Result<T>) -> Result<T, Failed> {
    match catch_unwind(AssertUnwindSafe(work)) {
        Ok(Ok(answer)) => Ok(answer),
        Ok(Err(error)) => Err(Failed::Erred(error.to_string())),
        Err(payload) if payload.is::<MixedTooLong>() => Err(Failed::MixedTooLong),
        Err(_) => Err(Failed::Panicked(last_panic())),
    }
}

fn number(cell: &StringOrNumber) -> f64 {
    match cell {
        StringOrNumber::Float(number) => *number,
        other => panic!("a number is expected, not {other:?}"),
    }
}

impl Tank {
    /// `StorageTank::new`, with the heaters in the given order. Specific heat is set to the double given,
    /// not by way of J/(kg.K).
    pub fn new(making: &Making, heaters: &[Heater]) -> Result<Tank, Failed> {
        Tank::with_output(making, heaters, true)
    }

    /// The same, with the detailed output or without.
    pub(super) fn with_output(making: &Making, heaters: &[Heater], output: bool) -> Result<Tank, Failed> {
        guarded(|| {
            let timestep = Timestep {
                index: 1,
                time: 0.0,
                step: making.step,
            };
            let feed = Arc::new(ColdWaterSource::default());
            let mut controls = Vec::new();
            let mut names: Vec<ArcStr> = Vec::new();
            let mut sources = IndexMap::new();
            for (index, heater) in heaters.iter().enumerate() {
                let control = CompositeRangeTimeControl::default();
                let immersion = ImmersionHeater::new(
                    heater.rated,
                    EnergySupplyConnection,
                    making.step,
                    Some(control.clone()),
                );
                let name: ArcStr = (&*index.to_string()).into();
                controls.push(control);
                names.push(name.clone());
                sources.insert(
                    name,
                    PositionedHeatSource {
                        heat_source: Arc::new(Mutex::new(HeatSource::Storage(
                            HeatSourceWithStorageTank::Immersion(Arc::new(Mutex::new(immersion))),
                        ))),
                        heater_position: heater.position,
                        thermostat_position: heater.thermostat,
                    },
                );
            }
            let mut tank = StorageTank::new(
                making.volume,
                making.standby,
                making.initial,
                WaterSupply::ColdWaterSource(feed.clone()),
                timestep,
                sources,
                Arc::new(|| unreachable!("no pipework and no solar system asks for it")),
                Arc::new(ExternalConditions),
                output,
                Some(making.layers),
                None,
                MaterialProperties::new(making.density, 0.0),
                Some(making.ambient),
                None,
                None,
            )?;
            tank.cp = making.specific_heat;
            let order = tank
                .heat_source_data
                .keys()
                .map(|name| name.parse().expect("a name is an index"))
                .collect();
            Ok(Tank {
                tank,
                feed,
                controls,
                names,
                order,
                timestep,
            })
        })
    }

    /// The given index of each heater, in working order.
    pub fn order(&self) -> &[usize] {
        &self.order
    }

    /// Work only the first so many heaters, in working order. The others keep flag and place.
    pub fn keep_heaters(&mut self, count: usize) {
        self.tank.heat_source_data.truncate(count);
    }

    pub fn state(&self) -> State {
        State {
            layers: self.tank.temp_n.read().clone(),
            flags: self
                .names
                .iter()
                .map(|name| self.tank.heating_active[name].load(Ordering::SeqCst))
                .collect(),
        }
    }

    pub fn put(&self, state: &State) {
        *self.tank.temp_n.write() = state.layers.clone();
        for (name, flag) in self.names.iter().zip(&state.flags) {
            self.tank.heating_active[name].store(*flag, Ordering::SeqCst);
        }
    }

    /// `demand_hot_water`. Set points are in the given order.
    pub fn step(&self, feed: f64, volumes: &[f64], set_points: &[SetPoints]) -> Result<Stepped, Failed> {
        self.feed.feed.store(feed, Ordering::SeqCst);
        for (control, given) in self.controls.iter().zip(set_points) {
            *control.set_points.lock().unwrap() = *given;
        }
        let events = volumes
            .iter()
            .map(|volume| WaterEventResult {
                event_result_type: WaterEventResultType::Other,
                temperature_warm: 0.0,
                volume_warm: 0.0,
                volume_hot: *volume,
                event_duration: 0.0,
            })
            .collect_vec();
        let details = self.tank.detailed_results.as_ref().expect("they were asked for");
        details.write().clear();
        let layers = self.tank.number_of_volumes;
        recorder::begin_step(layers, Arc::as_ptr(&self.tank.temp_n) as usize);
        let answer = guarded(|| self.tank.demand_hot_water(Some(events), self.timestep));
        let seen = recorder::end_step(answer.is_ok());
        let energy = answer?;
        let seen = seen.expect("the step ended");

        let details = details.read();
        let row = details.last().expect("one row for each step");
        let volume_used = number(&row[6]);
        if let Some(last) = seen.turns.last() {
            let at = 7 + layers + 2 + layers + layers + 1 + 2 * layers;
            assert_eq!(
                number(&row[at]).to_bits(),
                last.adjusted.to_bits(),
                "adjusted, seen twice"
            );
            assert_eq!(
                number(&row[at + 1]).to_bits(),
                last.losses.to_bits(),
                "losses, seen twice"
            );
        }
        assert_eq!(
            seen.turns.len(),
            self.tank.heat_source_data.len(),
            "a turn for each heater"
        );
        Ok(Stepped {
            energy,
            volume_used,
            average: self.tank.temp_average_drawoff.load(Ordering::SeqCst),
            recoverable: self.tank.q_sto_h_ls_rbl.load(Ordering::SeqCst),
            state: self.state(),
            turns: seen.turns,
            event_rounds: seen.event_rounds,
            layers_finite: seen.layers_finite,
        })
    }

    /// `rearrange_temperatures` on any layers, as many as the tank has; the layers after it and the rounds.
    pub fn mix(&self, layers: &[f64]) -> Result<(Vec<f64>, u64), Failed> {
        recorder::begin_mix(layers.len());
        let (_, mixed) = guarded(|| Ok(self.tank.rearrange_temperatures(layers)))?;
        Ok((mixed, recorder::end_mix()))
    }
}

/// A tank for mixings only: so many layers of this volume each.
pub fn mixer(layers: usize, layer_volume: f64) -> Result<Tank, Failed> {
    let making = Making {
        layers,
        volume: 1.0,
        standby: 0.0,
        initial: 0.0,
        density: 1.0,
        specific_heat: 1.0,
        ambient: 0.0,
        step: 1.0,
    };
    let mut tank = Tank::new(&making, &[])?;
    tank.tank.vol_n = vec![layer_volume; layers];
    Ok(tank)
}
