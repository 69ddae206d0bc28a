//! Tests of loop_station_words: what is read of lines and configurations, and what is printed. Those that are refused
//! stand in `tests/rows/BadOrder.rows` and `tests/rows/BadConfig.rows`.
//! - `orders`: lines and the orders that they are; `configs`: configurations; `lines`: what is printed.

mod configs;
mod lines;
mod orders;
