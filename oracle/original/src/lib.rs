//! The Rust of magnetar, unchanged, beside a stand-in for its generated protobuf types.
#![allow(clippy::all, rustdoc::broken_intra_doc_links, dead_code)]

pub mod pb;

include!(concat!(env!("OUT_DIR"), "/modules.rs"));
