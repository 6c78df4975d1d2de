//! A second implementation of document 01 and of document 02's K1, K2, K3, K6, K8, K10 and K14, written from their text: it says
//! what the library under test should answer.

pub mod answers;
pub mod apart;
pub mod arguments;
pub mod block;
pub mod boundaries;
pub mod cases;
pub mod compare;
pub mod damage;
pub mod edition;
pub mod exact;
pub mod ffi;
pub mod finer;
pub mod generate;
pub mod measure;
pub mod merging;
pub mod network;
pub mod parts;
pub mod printout;
pub mod random;
pub mod search;
pub mod shapes;
pub mod text;
pub mod timing;
pub mod worked;
