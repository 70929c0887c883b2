//! The measurements of crates/bench, over plain Rust that is made for speed: the same texts and calls, and the same sums over the answers.

mod dispatcher;
mod listing;
mod plan;
mod rack;

use dispatcher::Dispatcher;
use plan::{Card, Plan};
use rack::Rack;
use std::hint::black_box;
use std::time::Instant;

/// Eight rows of cycle 510, the longest that a plan can have, and 32 tasks, which are all admitted.
const LONG: &[u8] = b"S,0,34,1111111111111111110000000000000000\nS,1,15,111111111111000\nS,2,17,11111111000000000\nS,3,30,111111111111111111111111110000\nS,4,10,1111100000\nS,5,6,111100\nS,6,5,11100\nS,7,3,110\nT,5,60,1000,1000\nT,16,65,1096,1083\nT,27,70,1192,1166\nT,6,75,1288,1249\nT,17,80,1384,1332\nT,28,85,1480,1415\nT,7,90,1576,1498\nT,18,60,1672,1581\nT,29,65,1768,1664\nT,8,70,1864,1747\nT,19,75,1960,1830\nT,30,80,2056,1913\nT,9,85,2152,1996\nT,20,90,2248,2079\nT,31,60,2344,2162\nT,10,65,2440,2245\nT,21,70,2536,2328\nT,0,75,2632,2411\nT,11,80,2728,2494\nT,22,85,2824,2577\nT,1,90,2920,2660\nT,12,60,3016,2743\nT,23,65,3112,2826\nT,2,70,3208,2909\nT,13,75,3304,2992\nT,24,80,3400,3075\nT,3,85,3496,3158\nT,14,90,3592,3241\nT,25,60,3688,3324\nT,4,65,3784,3407\nT,15,70,3880,3490\nT,26,75,3976,3573\n";

/// Eight rows of cycle 8.
const SHORT: &[u8] = b"S,0,8,11111100\nS,1,8,11111010\nS,2,8,11110110\nS,3,8,11101110\nS,4,4,1110\nS,5,4,1101\nS,6,2,10\nS,7,1,1\n";

const LISTINGS: u64 = 1_000;
const RACKS: u64 = 20_000;
const QUESTIONED_RACKS: u64 = 2_000;
const LEVEL_QUESTIONS: u64 = 8 * 8193;
const TICKS: u64 = 2_000_000;
const TASKS: u32 = 32;

/// A sum over answers, in which their order counts.
#[inline]
fn mixed(sum: u64, answer: u64) -> u64 {
    sum.wrapping_mul(31).wrapping_add(answer)
}

fn list_plans(out: &mut [u8]) -> u64 {
    let mut sum = 0;
    for _ in 0..LISTINGS {
        let length = listing::list(black_box(LONG), black_box(&mut *out)).unwrap_or(0);
        sum = mixed(sum, length as u64);
    }
    out.iter().fold(sum, |sum, &byte| mixed(sum, u64::from(byte)))
}

fn make_racks(plan: &Plan) -> u64 {
    let mut sum = 0;
    for n in 0..RACKS {
        let mut rack = Rack::new(black_box(plan));
        sum = mixed(sum, u64::from(black_box(&mut rack).level(8, (n % 4) as u32)));
    }
    sum
}

fn question_racks(plan: &Plan) -> u64 {
    let mut sum = 0;
    for _ in 0..QUESTIONED_RACKS {
        let mut rack = Rack::new(black_box(plan));
        for k in 0..TASKS {
            for j in 1..=8 {
                sum = mixed(sum, u64::from(rack.level(j, 1000 + 83 * k)));
            }
        }
    }
    sum
}

fn ask_levels(plan: &Plan) -> u64 {
    let mut rack = Rack::new(plan);
    let mut sum = 0;
    for j in 1..=8 {
        for n in 0..=8192 {
            sum = mixed(sum, u64::from(rack.level(j, n)));
        }
    }
    sum
}

#[inline]
fn tick(dispatcher: &mut Dispatcher, sum: u64) -> u64 {
    match dispatcher.tick() {
        Ok((given, ran)) => mixed(mixed(sum, u64::from(given)), u64::from(ran)),
        Err(_) => mixed(sum, 1),
    }
}

#[inline]
fn release(dispatcher: &mut Dispatcher, id: u32, run_time: u32, sum: u64) -> u64 {
    match dispatcher.release(id, run_time) {
        Ok(()) => mixed(sum, 2),
        Err(_) => mixed(sum, 3),
    }
}

fn ticks_in_bursts(dispatcher: &mut Dispatcher) -> u64 {
    let mut sum = 0;
    for clock in 0..TICKS {
        if clock % 64 == 0 {
            sum = (0..TASKS).fold(sum, |sum, id| release(dispatcher, id, 7, sum));
        }
        sum = tick(dispatcher, sum);
    }
    sum
}

fn steady_ticks(dispatcher: &mut Dispatcher) -> u64 {
    let mut sum = 0;
    for turn in 0..TICKS {
        sum = release(dispatcher, (turn % 32) as u32, 3, sum);
        sum = tick(dispatcher, sum);
    }
    sum
}

/// A dispatcher with 32 tasks, whose deadlines are up to `spread` ticks shorter than their period.
fn busy(plan: &Plan, run: u32, period: u32, spread: u32) -> Dispatcher {
    let mut dispatcher = Dispatcher::new(Rack::new(plan));
    for id in 0..TASKS {
        let card = Card { id, c: run, t: period, d: period - id * 5 % spread };
        dispatcher.admit(card).expect("every task is admitted");
    }
    dispatcher
}

fn measure(name: &str, count: u64, work: impl FnOnce() -> u64) {
    let start = Instant::now();
    let sum = work();
    let time = start.elapsed().as_nanos();
    eprintln!("{name}: {count} in {time} ns, sum {sum}");
}

fn main() {
    let mut out = [0; 512];
    measure("plans listed", LISTINGS, || list_plans(&mut out));
    let long = Plan::read(LONG).expect("the long plan has no fault");
    measure("racks made", RACKS, || make_racks(&long));
    measure("racks made and asked 256 levels", QUESTIONED_RACKS, || question_racks(&long));
    measure("levels asked", LEVEL_QUESTIONS, || ask_levels(&long));
    let short = Plan::read(SHORT).expect("the short plan has no fault");
    let mut dispatcher = busy(&short, 7, 64, 16);
    measure("ticks, releases in bursts", TICKS, || ticks_in_bursts(&mut dispatcher));
    let mut dispatcher = busy(&short, 3, 32, 8);
    measure("ticks, a release before each", TICKS, || steady_ticks(&mut dispatcher));
}
