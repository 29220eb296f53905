//! The library through its safe functions and through its entries as they are: the declarations against docs/ABI.md and the
//! Rattle source, the stored answers of the Rust, refusals and what they leave alone, maps of every length, the lowest and the highest
//! reading of windows, figures of two traces that are worked out by hand, the limits, random calls against the Rust where ORACLE_SRC
//! names its folder, and a run of the first ones under valgrind.
mod declarations;
mod extremes;
mod limits;
mod lists;
mod maps;
mod oracle;
mod pairs;
mod refusals;
mod valgrind;
mod vectors;
