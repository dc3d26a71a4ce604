// `demand_hot_water` and nothing else, for timing: what it is called with is made beforehand, and what it leaves is
// read afterwards. The detailed output is off: document 01 leaves it out.

use super::probe::{Heater, Making, SetPoints, State, Tank};
use super::*;
use crate::core::water_heat_demand::misc::WaterEventResultType;

pub struct Timed(Tank);

/// The events of one step.
pub struct Events(Vec<WaterEventResult>);

pub fn events(volumes: &[f64]) -> Events {
    let event = |volume: &f64| WaterEventResult {
        event_result_type: WaterEventResultType::Other,
        temperature_warm: 0.0,
        volume_warm: 0.0,
        volume_hot: *volume,
        event_duration: 0.0,
    };
    Events(volumes.iter().map(event).collect_vec())
}

impl Timed {
    /// A tank that is given this feed and these set points in every step.
    pub fn new(making: &Making, heaters: &[Heater], feed: f64, set_points: SetPoints) -> Timed {
        let tank = Tank::with_output(making, heaters, false)
            .unwrap_or_else(|failed| panic!("no tank is made: {failed:?}"));
        tank.feed.feed.store(feed, Ordering::SeqCst);
        for control in &tank.controls {
            *control.set_points.lock().unwrap() = set_points;
        }
        Timed(tank)
    }

    pub fn put(&self, state: &State) {
        self.0.put(state)
    }

    pub fn state(&self) -> State {
        self.0.state()
    }

    /// Average draw-off temperature and recoverable losses, as the last step left them.
    pub fn average_and_recoverable(&self) -> (f64, f64) {
        let tank = &self.0.tank;
        (
            tank.temp_average_drawoff.load(Ordering::SeqCst),
            tank.q_sto_h_ls_rbl.load(Ordering::SeqCst),
        )
    }

    #[inline]
    pub fn demand_hot_water(&self, events: Events) -> f64 {
        self.0
            .tank
            .demand_hot_water(Some(events.0), self.0.timestep)
            .expect("an ordinary step")
    }

    #[inline]
    pub fn rearrange_temperatures(&self, layers: &[f64]) -> Vec<f64> {
        self.0.tank.rearrange_temperatures(layers).1
    }
}
