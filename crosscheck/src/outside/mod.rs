//! What neither implementation made: the worked slot burst and the bits of the links that M.2092-1
//! prints, and the vectors of packaged libraries.

pub mod channel_bits;
pub mod vectors;
pub mod worked_burst;
