//! A stand-in for magnetar's generated `crate::pb`: the messages and fields that `dag_watch.rs`, `types.rs` and `scalable_consumer.rs`
//! use. Field numbers are this file's own, all below 16, so that each key takes one byte; the encoded size that the Rust compares with
//! its limit (3) is therefore this file's, and the library is given the same number.

use prost::{Enumeration, Message, Oneof};

/// An integer that names no member.
#[derive(Debug, Clone, Copy, PartialEq, Eq)]
pub struct Unknown(pub i32);

macro_rules! from_wire {
    ($name:ident) => {
        impl TryFrom<i32> for $name {
            type Error = Unknown;
            fn try_from(value: i32) -> Result<Self, Unknown> {
                Self::from_i32(value).ok_or(Unknown(value))
            }
        }
    };
}

#[derive(Clone, Copy, Debug, PartialEq, Eq, Hash, PartialOrd, Ord, Enumeration)]
#[repr(i32)]
pub enum SegmentState {
    Active = 0,
    Sealed = 1,
}
from_wire!(SegmentState);

#[derive(Clone, Copy, Debug, PartialEq, Eq, Hash, PartialOrd, Ord, Enumeration)]
#[repr(i32)]
pub enum ScalableConsumerType {
    Stream = 0,
    Checkpoint = 1,
}
from_wire!(ScalableConsumerType);

#[derive(Clone, Copy, Debug, PartialEq, Eq, Hash, PartialOrd, Ord, Enumeration)]
#[repr(i32)]
pub enum CompressionType {
    None = 0,
    Lz4 = 1,
    Zlib = 2,
    Zstd = 3,
    Snappy = 4,
}
from_wire!(CompressionType);

#[derive(Clone, PartialEq, Message)]
pub struct SegmentInfoProto {
    #[prost(uint64, required, tag = "1")]
    pub segment_id: u64,
    #[prost(uint32, required, tag = "2")]
    pub hash_start: u32,
    #[prost(uint32, required, tag = "3")]
    pub hash_end: u32,
    #[prost(enumeration = "SegmentState", required, tag = "4")]
    pub state: i32,
    #[prost(uint64, repeated, packed = "false", tag = "5")]
    pub parent_ids: Vec<u64>,
    #[prost(uint64, repeated, packed = "false", tag = "6")]
    pub child_ids: Vec<u64>,
    #[prost(uint64, required, tag = "7")]
    pub created_at_epoch: u64,
    #[prost(uint64, optional, tag = "8")]
    pub sealed_at_epoch: Option<u64>,
    #[prost(uint64, required, tag = "9")]
    pub created_at_ms: u64,
    #[prost(uint64, optional, tag = "10")]
    pub sealed_at_ms: Option<u64>,
    #[prost(string, optional, tag = "11")]
    pub legacy_topic_name: Option<String>,
    #[prost(uint32, repeated, packed = "false", tag = "12")]
    pub entry_bucket_splits: Vec<u32>,
}

#[derive(Clone, PartialEq, Message)]
pub struct SegmentBrokerAddress {
    #[prost(uint64, required, tag = "1")]
    pub segment_id: u64,
    #[prost(string, required, tag = "2")]
    pub broker_url: String,
    #[prost(string, optional, tag = "3")]
    pub broker_url_tls: Option<String>,
}

#[derive(Clone, PartialEq, Message)]
pub struct ScalableTopicDag {
    #[prost(uint64, required, tag = "1")]
    pub epoch: u64,
    #[prost(message, repeated, tag = "2")]
    pub segments: Vec<SegmentInfoProto>,
    #[prost(message, repeated, tag = "3")]
    pub segment_brokers: Vec<SegmentBrokerAddress>,
    #[prost(string, optional, tag = "4")]
    pub controller_broker_url: Option<String>,
    #[prost(string, optional, tag = "5")]
    pub controller_broker_url_tls: Option<String>,
}

#[derive(Clone, PartialEq, Message)]
pub struct CommandScalableTopicUpdate {
    #[prost(uint64, required, tag = "1")]
    pub session_id: u64,
    #[prost(message, optional, tag = "2")]
    pub dag: Option<ScalableTopicDag>,
    #[prost(int32, optional, tag = "3")]
    pub error: Option<i32>,
    #[prost(string, optional, tag = "4")]
    pub message: Option<String>,
    #[prost(string, optional, tag = "5")]
    pub resolved_topic_name: Option<String>,
}

#[derive(Clone, PartialEq, Message)]
pub struct IntRange {
    #[prost(int32, required, tag = "1")]
    pub start: i32,
    #[prost(int32, required, tag = "2")]
    pub end: i32,
}

#[derive(Clone, PartialEq, Message)]
pub struct ScalableAssignedSegment {
    #[prost(uint64, required, tag = "1")]
    pub segment_id: u64,
    #[prost(uint32, required, tag = "2")]
    pub hash_start: u32,
    #[prost(uint32, required, tag = "3")]
    pub hash_end: u32,
    #[prost(string, required, tag = "4")]
    pub segment_topic: String,
    #[prost(message, repeated, tag = "5")]
    pub bucket_ranges: Vec<IntRange>,
}

#[derive(Clone, PartialEq, Message)]
pub struct ScalableConsumerAssignment {
    #[prost(uint64, required, tag = "1")]
    pub layout_epoch: u64,
    #[prost(message, repeated, tag = "2")]
    pub segments: Vec<ScalableAssignedSegment>,
}

// What follows is named by the files but never used by the harness: sessions of consumers, the namespace watch, message ids.

#[derive(Clone, PartialEq, Message)]
pub struct CommandScalableTopicSubscribeResponse {
    #[prost(uint64, required, tag = "1")]
    pub request_id: u64,
    #[prost(message, optional, tag = "2")]
    pub assignment: Option<ScalableConsumerAssignment>,
    #[prost(int32, optional, tag = "3")]
    pub error: Option<i32>,
    #[prost(string, optional, tag = "4")]
    pub message: Option<String>,
}

#[derive(Clone, PartialEq, Message)]
pub struct CommandScalableTopicAssignmentUpdate {
    #[prost(uint64, required, tag = "1")]
    pub consumer_id: u64,
    #[prost(message, required, tag = "2")]
    pub assignment: ScalableConsumerAssignment,
}

#[derive(Clone, PartialEq, Message)]
pub struct ScalableTopicsSnapshot {
    #[prost(string, repeated, tag = "1")]
    pub topics: Vec<String>,
}

#[derive(Clone, PartialEq, Message)]
pub struct ScalableTopicsDiff {
    #[prost(string, repeated, tag = "1")]
    pub added: Vec<String>,
    #[prost(string, repeated, tag = "2")]
    pub removed: Vec<String>,
}

#[derive(Clone, PartialEq, Message)]
pub struct CommandWatchScalableTopicsUpdate {
    #[prost(uint64, required, tag = "1")]
    pub watch_id: u64,
    #[prost(int32, optional, tag = "2")]
    pub error: Option<i32>,
    #[prost(string, optional, tag = "3")]
    pub message: Option<String>,
    #[prost(oneof = "command_watch_scalable_topics_update::Event", tags = "4, 5")]
    pub event: Option<command_watch_scalable_topics_update::Event>,
}

pub mod command_watch_scalable_topics_update {
    use super::Oneof;

    #[derive(Clone, PartialEq, Oneof)]
    pub enum Event {
        #[prost(message, tag = "4")]
        Snapshot(super::ScalableTopicsSnapshot),
        #[prost(message, tag = "5")]
        Diff(super::ScalableTopicsDiff),
    }
}

#[derive(Clone, PartialEq, Message)]
pub struct MessageIdData {
    #[prost(uint64, required, tag = "1")]
    pub ledger_id: u64,
    #[prost(uint64, required, tag = "2")]
    pub entry_id: u64,
    #[prost(int32, optional, tag = "3")]
    pub partition: Option<i32>,
    #[prost(int32, optional, tag = "4")]
    pub batch_index: Option<i32>,
    #[prost(int64, repeated, packed = "false", tag = "5")]
    pub ack_set: Vec<i64>,
    #[prost(int32, optional, tag = "6")]
    pub batch_size: Option<i32>,
    #[prost(message, optional, boxed, tag = "7")]
    pub first_chunk_message_id: Option<Box<MessageIdData>>,
}
