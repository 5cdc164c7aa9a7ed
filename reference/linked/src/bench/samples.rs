//! One sample of a move.

use super::contest::Contest;
use super::inputs::moves_of;
use super::{agree, Section};
use crate::library;
use reference::planner::{Move, Order::Fourth};
use reference::profile::{sample, SampleAnswer};
use reference::request::Request;

/// A move and the number of a sample.
type Ask = (Move, u64);

/// At most how many times an early one's time, and the plan's, a late sample takes.
const EARLY_AIM: Option<f64> = Some(1.2);
const PLAN_AIM: Option<f64> = Some(1.6);

pub fn section() -> Result<Section, String> {
    let mut contests = Vec::new();
    for n in [8, 64, 512, 4096] {
        contests.extend([at(n, n / 2)?.ready(), at(n, n)?.ready()]);
    }
    let late = at(4096, 3000)?
        .against("sample 3", EARLY_AIM, |(motion, _), _| {
            library::sample_move(*motion, 3)
        })
        .against("plan", PLAN_AIM, |(motion, _), _| {
            library::plan_move(*motion)
        });
    contests.push(late.ready());
    Ok(Section {
        title: "One sample",
        contests,
    })
}

fn at(n: u64, k: u64) -> Result<Contest<Ask, ()>, String> {
    let asks: Vec<Ask> = moves_of(n).into_iter().map(|motion| (motion, k)).collect();
    for (motion, k) in &asks {
        agree(&Request::Sample(Fourth, *motion, *k))?;
    }
    let what = format!("sample {k} of {n}");
    Ok(Contest::new(what, Some(k), asks, Box::new(()))
        .archive(|(motion, k), _| library::sample_move(*motion, *k))
        .against("128-bit planner, iterator", None, |(motion, k), _| {
            summed(motion, *k)
        }))
}

#[inline(never)]
fn summed(motion: &Move, k: u64) -> SampleAnswer {
    sample(Fourth, motion, k)
}
