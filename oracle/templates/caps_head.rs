// A head of the oracle's own; the parts below it are publisher-caps/src/lib.rs, line for line.
use {
    anchor_lang::prelude::*,
    arrayref::array_ref,
    bytemuck::{
        Pod,
        Zeroable,
    },
};

