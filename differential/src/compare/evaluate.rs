//! Compares `evaluate` with exact arithmetic in 64 bits.
use crate::model;
use crate::sources::Random;
use laqhoncu::{Operator, Refusal};

const OPERATORS: [Operator; 4] = [Operator::Add, Operator::Subtract, Operator::Multiply, Operator::Divide];

/// Each operator, on edges and at random. Gives how many were compared, and how many of each refusal met.
pub fn all(random_pairs: u64, mut ours: impl FnMut(Operator, i32, i32) -> Result<i32, Refusal>) -> (u64, [u64; 2]) {
    let (mut count, mut met) = (0, [0; 2]);
    let mut one = |operator: Operator, left: i32, right: i32| {
        let expected = model::evaluate(operator, left, right);
        let said = ours(operator, left, right);
        assert!(said == expected, "{left} {operator} {right}\nexpected {expected:?}\nsaid     {said:?}");
        count += 1;
        if let Err(refusal) = expected {
            met[refusal.number as usize - 50] += 1;
        }
    };
    let mut edges = vec![];
    for middle in [0, i32::MIN, i32::MAX, 1 << 16, -(1 << 16), 46340, -46340, 46341, -46341, 1 << 30] {
        edges.extend((-28..28).map(|step| i32::wrapping_add(middle, step)));
    }
    for operator in OPERATORS {
        for left in &edges {
            edges.iter().for_each(|right| one(operator, *left, *right));
        }
    }
    let mut random = Random::new(6);
    let mut number = move || {
        let bits = (random.below(1 << 16) << 16 | random.below(1 << 16)) as u32 as i32;
        bits >> random.below(32)
    };
    for _ in 0..random_pairs {
        let (left, right) = (number(), number());
        OPERATORS.into_iter().for_each(|operator| one(operator, left, right));
    }
    (count, met)
}
