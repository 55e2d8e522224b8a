//! The C engine of host/bench behind safe calls, as host/yard has the library.
#![allow(unsafe_code)]

yard::engine!(
    "base_check",
    "base_start",
    "base_offered",
    "base_offered_bits",
    "base_try",
    "base_settle",
    "base_list",
    "base_turn",
    "base_log",
    "base_log_index"
);
