//! The listing of a plan text.

use crate::dispatcher::{Dispatcher, Refusal};
use crate::plan::Plan;
use crate::rack::Rack;

pub fn listing(text: &[u8]) -> String {
    match Plan::read(text) {
        Ok(plan) => listing_of_plan(&plan),
        Err(fault) => format!("{fault}\n"),
    }
}

fn listing_of_plan(plan: &Plan) -> String {
    let rack = Rack::new(plan);
    let mut lines = format!("rack,{},{}\n", plan.rows.len(), rack.cycle());
    let mut dispatcher = Dispatcher::new(rack);
    for &card in &plan.cards {
        let (word, number) = match dispatcher.admit(card) {
            Ok(level) => ("yes", level),
            Err(Refusal::NoLevel { task }) => ("no", u64::from(task)),
            Err(other) => unreachable!("a card of a plan is refused by 24 alone, not by {}", other.number()),
        };
        lines += &format!("{},{word},{number}\n", card.id);
    }
    lines
}
