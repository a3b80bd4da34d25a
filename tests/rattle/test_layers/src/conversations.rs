//! Conversations at a hall of one node that is driven by hand, over links of known bytes. The expected values were worked out
//! by hand.

mod driven;
mod driven_desk;
mod one_forgetting_node;
mod one_node;
mod pipe;
mod rows;
