//! Cores are simulated: any pause, any clock within its bound, any loss.

mod acts;
mod draw;
mod drawing;
mod partitions;
mod planted;
mod timed;
mod world;
