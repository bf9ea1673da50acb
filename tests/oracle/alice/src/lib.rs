//! The original files of eneoli/alice, unchanged, and the two functions of its `src/lib.rs` that document 01 refers
//! to. The rest of that file needs modules that are not here.
#![allow(warnings)]

use itertools::Itertools;
use kernel::{
    proof::Proof,
    proof_tree::{ProofTree, ProofTreeConclusion},
    prop::Prop,
};

include!(concat!(env!("OUT_DIR"), "/modules.rs"));
include!(concat!(env!("OUT_DIR"), "/functions.rs"));
