//! The protocol's worked lines and V3.3's own examples, the open points one by one as this project
//! reads them, and laws over seeded inputs.

mod a_numbers;
mod b_frame_and_receiver;
mod c_table;
mod common;
mod d_reply_reader;
mod e_standin;
mod f_listing;
mod laws;
mod lines;
mod v3_3;
