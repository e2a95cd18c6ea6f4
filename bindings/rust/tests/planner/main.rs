//! The tests of the bindings: the planner against an independent model and against outside texts, the installed C library,
//! the examples, and what is written in several places held together.

mod c;
mod common;
mod compare;
mod differential;
mod examples;
#[allow(dead_code)]
#[path = "../../benches/speed/families.rs"]
mod families;
mod model;
mod once;
mod outside;
#[path = "../../benches/speed/painted.rs"]
mod painted;
mod places;
#[allow(dead_code)]
#[path = "../../benches/speed/products.rs"]
mod products;
mod promises;
#[allow(dead_code)]
#[path = "../../benches/speed/refused.rs"]
mod refused;
