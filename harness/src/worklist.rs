//! The worklist of document 01, written plainly: it gives the counts, which the Rust does not keep.
//!
//! It differs from the Rust's `fixed_point` in one thing: a variable enters each time its effect rises, also
//! while it still waits. The effects come out the same.

use vine::components::analyzer::effect::Effect;

#[derive(Clone, Debug, PartialEq, Eq)]
pub struct Solution {
    pub effects: Vec<Effect>,
    /// How often each variable was taken.
    pub taken: Vec<u32>,
    pub evaluations: u32,
}

impl Solution {
    pub fn takes(&self) -> u32 {
        self.taken.iter().sum()
    }
}

/// Relations are three inputs and an output, as numbers of variables; there is a seed for each variable.
pub fn solve(relations: &[[usize; 4]], seeds: &[Effect], inverse: bool) -> Solution {
    let entries = entries(relations, seeds.len());
    let mut solution = Solution { effects: seeds.to_vec(), taken: vec![0; seeds.len()], evaluations: 0 };
    let mut waiting: Vec<usize> = (0..seeds.len()).filter(|&v| seeds[v] != Effect::Never).collect();
    while let Some(variable) = waiting.pop() {
        solution.taken[variable] += 1;
        for &relation in &entries[variable] {
            solution.evaluations += 1;
            let [a, b, c, out] = relations[relation];
            let [a, b, c, old] = [a, b, c, out].map(|v| solution.effects[v]);
            let joined = if inverse { c.join(b).join(a) } else { a.join(b).join(c) };
            let new = old.union(joined);
            if new != old {
                solution.effects[out] = new;
                waiting.push(out);
            }
        }
    }
    solution
}

/// For each variable the relations that it is an input of, once for each input, in relation order.
fn entries(relations: &[[usize; 4]], variables: usize) -> Vec<Vec<usize>> {
    let mut entries = vec![Vec::new(); variables];
    for (relation, &[a, b, c, _]) in relations.iter().enumerate() {
        for variable in [a, b, c] {
            entries[variable].push(relation);
        }
    }
    entries
}
