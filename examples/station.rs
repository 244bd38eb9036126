//! Three tasks of nearly two thirds of a core each share two cores: who holds which core, and until
//! when.

#[path = "../include/killaruna.rs"]
mod killaruna;

use killaruna::{segments, Holder, Planner, Refusal, SEGMENT_WORDS, SHARE_WORDS, STATE_WORDS};

fn declare(planner: &mut Planner, period: u64, cost: u64) {
    let answer = match planner.declare(period, cost) {
        Ok(done) => format!("slot {}", done.value),
        Err(refusal) => refusal.to_string(),
    };
    println!("declare period {period}, cost {cost}: {answer}");
}

fn release(planner: &mut Planner, slot: u64) {
    let answer = match planner.release(slot) {
        Ok(done) => format!("deadline tick {}", done.value),
        Err(refusal) => refusal.to_string(),
    };
    println!("release slot {slot}: {answer}");
}

fn holder(planner: &Planner, tick: u64, core: u64) {
    let answer = match planner.holder(core) {
        Ok(Holder::Held { slot, until }) => format!("slot {slot} until grain {until}"),
        Ok(Holder::IdleUntil(grain)) => format!("idle until grain {grain}"),
        Ok(Holder::Idle) => "idle".to_string(),
        Err(refusal) => refusal.to_string(),
    };
    println!("at tick {tick} core {core}: {answer}");
}

fn advance(planner: &mut Planner, tick: u64) {
    let mut buffer = [0; SEGMENT_WORDS];
    match planner.advance(tick, &mut buffer) {
        Ok(done) => {
            println!(
                "advance to tick {tick}: tick {} reached, {} segments",
                done.value, done.count
            );
            for part in segments(&buffer, done.count) {
                println!(
                    "  core {}, grains {:4} to {:4}: slot {}",
                    part.core, part.first, part.after, part.slot
                );
            }
        }
        Err(refusal) => println!("advance to tick {tick}: {refusal}"),
    }
}

fn main() -> Result<(), Refusal> {
    let mut state = [0; STATE_WORDS];
    let mut shares = [0; SHARE_WORDS];
    let mut planner = Planner::lent(&mut state, &mut shares);
    println!("open: {} cores", planner.open(2)?.value);
    for _ in 0..3 {
        declare(&mut planner, 3, 1998);
    }
    // 3 times 666 grains a tick are taken; 5 more make 2,003, and two cores have 2,000.
    declare(&mut planner, 1, 5);
    for slot in 0..3 {
        release(&mut planner, slot);
    }
    for core in 0..2 {
        holder(&planner, 0, core);
    }
    advance(&mut planner, 3);
    holder(&planner, 3, 0);
    Ok(())
}
