//! What the rules are tried on: journals of runs, readable worlds that no run
//! reaches, spoiled images, and steps aimed at a given world.

pub mod answers;
pub mod calls;
pub mod journals;
pub mod logs;
pub mod moves;
pub mod phases;
pub mod profile;
pub mod specimen;
pub mod spoils;
pub mod steps;
pub mod stops;
pub mod worlds;
