// Made from crates/zerotrie_uses/src/constants.rt by rust/make: edit that.
//! Tables of constants. No build refuses them: the only error is out of memory, and a build in an
//! array returns none.

use crate::rstd::prelude::*;
use crate::rstd::alloc::{AllocError, Global};
use crate::zerotrie_all::bytes::{ByteSliceWithIndices, ZeroTrieBuilderConst, get};
use crate::zerotrie_all::{Ignore, Simple, ZeroTrieBuildError, ZeroTrieSimpleAscii};

/// Names of headers in ascending order, each with its number.
pub const HEADERS: &[(&[u8], usize)] = &[
    (b"accept", 0),
    (b"accept-charset", 1),
    (b"accept-datetime", 2),
    (b"accept-encoding", 3),
    (b"accept-language", 4),
    (b"accept-patch", 5),
    (b"accept-post", 6),
    (b"accept-ranges", 7),
    (b"access-control-allow-credentials", 8),
    (b"access-control-allow-headers", 9),
    (b"access-control-allow-methods", 10),
    (b"access-control-allow-origin", 11),
    (b"access-control-expose-headers", 12),
    (b"access-control-max-age", 13),
    (b"access-control-request-headers", 14),
    (b"access-control-request-method", 15),
    (b"age", 16),
    (b"allow", 17),
    (b"alt-svc", 18),
    (b"alt-used", 19),
    (b"authorization", 20),
    (b"cache-control", 21),
    (b"clear-site-data", 22),
    (b"connection", 23),
    (b"content-digest", 24),
    (b"content-disposition", 25),
    (b"content-encoding", 26),
    (b"content-language", 27),
    (b"content-length", 28),
    (b"content-location", 29),
    (b"content-range", 30),
    (b"content-security-policy", 31),
    (b"content-security-policy-report-only", 32),
    (b"content-type", 33),
    (b"cookie", 34),
    (b"cross-origin-embedder-policy", 35),
    (b"cross-origin-opener-policy", 36),
    (b"cross-origin-resource-policy", 37),
    (b"date", 38),
    (b"dav", 39),
    (b"depth", 40),
    (b"destination", 41),
    (b"early-data", 42),
    (b"etag", 43),
    (b"expect", 44),
    (b"expires", 45),
    (b"forwarded", 46),
    (b"from", 47),
    (b"host", 48),
    (b"if", 49),
    (b"if-match", 50),
    (b"if-modified-since", 51),
    (b"if-none-match", 52),
    (b"if-range", 53),
    (b"if-unmodified-since", 54),
    (b"keep-alive", 55),
    (b"last-modified", 56),
    (b"link", 57),
    (b"location", 58),
    (b"lock-token", 59),
    (b"max-forwards", 60),
    (b"nel", 61),
    (b"origin", 62),
    (b"overwrite", 63),
    (b"permissions-policy", 64),
    (b"pragma", 65),
    (b"prefer", 66),
    (b"preference-applied", 67),
    (b"priority", 68),
    (b"proxy-authenticate", 69),
    (b"proxy-authorization", 70),
    (b"range", 71),
    (b"referer", 72),
    (b"referrer-policy", 73),
    (b"retry-after", 74),
    (b"sec-fetch-dest", 75),
    (b"sec-fetch-mode", 76),
    (b"sec-fetch-site", 77),
    (b"sec-fetch-user", 78),
    (b"sec-purpose", 79),
    (b"sec-websocket-accept", 80),
    (b"sec-websocket-extensions", 81),
    (b"sec-websocket-key", 82),
    (b"sec-websocket-protocol", 83),
    (b"sec-websocket-version", 84),
    (b"server", 85),
    (b"server-timing", 86),
    (b"set-cookie", 87),
    (b"sourcemap", 88),
    (b"strict-transport-security", 89),
    (b"te", 90),
    (b"timeout", 91),
    (b"timing-allow-origin", 92),
    (b"trailer", 93),
    (b"transfer-encoding", 94),
    (b"upgrade", 95),
    (b"upgrade-insecure-requests", 96),
    (b"user-agent", 97),
    (b"vary", 98),
    (b"via", 99),
    (b"want-content-digest", 100),
    (b"www-authenticate", 101),
    (b"x-content-type-options", 102),
    (b"x-frame-options", 103),
];

/// Returns the trie of the headers. An error means that an allocation failed: the proof computes
/// that the names ascend, and that they are ASCII and few enough.
pub fn header_trie(alloc: Global) -> Result<ZeroTrieSimpleAscii<Vec<u8>>, AllocError> {
    match ZeroTrieSimpleAscii::try_from_sorted_slice(alloc, HEADERS) {
        Ok(trie) => Ok(trie),
        Err(ZeroTrieBuildError::OutOfMemory) => Err(AllocError),
        Err(_) => unreachable!(),
    }
}

/// Returns the bytes of the trie of the headers, in an array. There is no error, and nothing is
/// allocated: the array has 20 bytes for each header and those of its name, and the stack holds a
/// subtrie for each.
pub fn header_bytes() -> ZeroTrieBuilderConst<3493> {
    let items = ByteSliceWithIndices::from_byte_slice(HEADERS);
    match ZeroTrieBuilderConst::<3493>::from_tuple_slice_with_stack::<104>(items) {
        Ok(bytes) => bytes,
        Err(_) => unreachable!(),
    }
}

/// Returns the number of a header, or `None` exactly if the table has no such name.
pub fn header_number(name: &[u8]) -> Option<usize> {
    let bytes = header_bytes();
    ZeroTrieSimpleAscii::from_bytes(bytes.as_bytes()).get(name)
}

/// Returns the number of a header field in any case, or `None` exactly if there is no such field.
/// There is no error, and nothing is allocated. The names ascend in lower case.
pub fn field_number(name: &[u8]) -> Option<usize> {
    let fields: [(&[u8], usize); 8] = [
        (b"Accept", 0),
        (b"Content-Length", 1),
        (b"Content-Type", 2),
        (b"DNT", 3),
        (b"ETag", 4),
        (b"Host", 5),
        (b"TE", 6),
        (b"WWW-Authenticate", 7),
    ];
    let items = ByteSliceWithIndices::from_byte_slice(&fields);
    match ZeroTrieBuilderConst::<221>::from_tuple_slice_as::<Ignore, 8>(items) {
        Ok(bytes) => get::<Ignore>(bytes.as_bytes(), name),
        Err(_) => unreachable!(),
    }
}

/// Returns the number of a request method, or `None` exactly if there is no such method. There is
/// no error, and nothing is allocated.
pub fn method_number(name: &[u8]) -> Option<usize> {
    let methods: [(&[u8], usize); 9] = [
        (b"CONNECT", 0),
        (b"DELETE", 1),
        (b"GET", 2),
        (b"HEAD", 3),
        (b"OPTIONS", 4),
        (b"PATCH", 5),
        (b"POST", 6),
        (b"PUT", 7),
        (b"TRACE", 8),
    ];
    let items = ByteSliceWithIndices::from_byte_slice(&methods);
    match ZeroTrieBuilderConst::<224>::from_tuple_slice_with_stack::<9>(items) {
        Ok(bytes) => get::<Simple>(bytes.as_bytes(), name),
        Err(_) => unreachable!(),
    }
}
