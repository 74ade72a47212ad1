//! A kiosk to try settings on: paper 12 of document 02, second by second in its words.

use crate::log::{self, Record};

/// In seconds.
#[derive(Clone, Copy, Debug, PartialEq, Eq)]
pub struct Settings {
    pub warm_up: u32,
    pub print_time: u32,
    pub switch_off: u32,
    pub mean_gap: u32,
}

#[derive(Clone, Debug, PartialEq, Eq)]
pub struct Simulated {
    pub log: Vec<u8>,
    pub finished: u64,
    pub printing: u64,
    pub waiting: u64,
}

/// "Marsaglia's xorshift32 with shifts 13 left, 17 right, 5 left; each draw moves the generator on by one step and is
/// its new state."
pub fn draw(state: &mut u32) -> u32 {
    *state ^= *state << 13;
    *state ^= *state >> 17;
    *state ^= *state << 5;
    *state
}

/// What the simulation writes and gives, or refusal 26: "a setting, the seconds or the seed is outside its range or
/// the lent log buffer is short."
pub fn simulate(settings: Settings, seconds: u32, seed: u32, room: usize) -> Result<Simulated, u32> {
    let Settings { warm_up, print_time, switch_off, mean_gap } = settings;
    let in_range = (1..=600).contains(&warm_up)
        && (1..=600).contains(&print_time)
        && (1..=3600).contains(&switch_off)
        && (1..=3600).contains(&mean_gap)
        && seconds <= 3600
        && seed != 0;
    if !in_range || room < 8 + 8 * seconds as usize {
        return Err(26);
    }
    let mut generator = seed;
    let (mut finished, mut waiting) = (0, 0);
    // "with the head off and nobody there"
    let mut warm = false;
    let mut warming_since: Option<u32> = None;
    let mut printing_since: Option<u32> = None;
    let mut idle_since = 0;
    let mut records = Vec::new();
    for now in 0..seconds {
        let mut letters = 0;
        // "a due print ends (letter 3)"
        if printing_since.is_some_and(|began| now - began >= print_time) {
            printing_since = None;
            finished += 1;
            idle_since = now;
            letters |= 1 << 3;
        }
        // "one draw, and a customer joins if it is divisible by the mean gap (letter 2)"
        if draw(&mut generator).is_multiple_of(mean_gap) {
            waiting += 1;
            letters |= 1 << 2;
        }
        // "due warming ends"
        if warming_since.is_some_and(|began| now - began >= warm_up) {
            warming_since = None;
            warm = true;
            idle_since = now;
        }
        // "a warm head idle for the switch-off time goes off"
        let free = printing_since.is_none();
        if warm && free && now - idle_since >= switch_off {
            warm = false;
        }
        // "a print begins if the head is warm and free and someone waits (letter 1)"
        if warm && free && waiting > 0 {
            waiting -= 1;
            printing_since = Some(now);
            letters |= 1 << 1;
        }
        // "warming begins if it is off and someone waits"
        let off = !warm && warming_since.is_none();
        if off && waiting > 0 {
            warming_since = Some(now);
        }
        // "Letter 0 stands in every second that ends with a warm head."
        letters |= u32::from(warm);
        records.push(Record { time: now, letters });
    }
    let printing = u64::from(printing_since.is_some());
    Ok(Simulated { log: log::encode(&records), finished, printing, waiting })
}
