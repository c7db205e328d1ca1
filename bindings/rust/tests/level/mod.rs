//! The model of most tests.

use goxundar::{Design, Model, Transition};

/// README.md's level, which is 01's model unless said: m = p = r = 1, Z = T = R = 1, H = 1, Q = 2, flagged, a1 = P* = 0.
pub fn level() -> Model {
    Model {
        design: Design::Constant(vec![1.0]),
        h: vec![1.0],
        transition: Transition::Constant(vec![1.0]),
        rr: vec![1.0],
        q: vec![2.0],
        diffuse: vec![true],
        ..Model::zeros(1, 1, 1)
    }
}
