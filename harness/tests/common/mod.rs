//! What the test files share.

/// A test that needs the Rust; without it, it counts as ignored.
macro_rules! live {
    ($name:ident, $body:block) => {
        #[test]
        #[cfg_attr(not(feature = "oracle"), ignore = "Vine's sources are not at hand")]
        fn $name() {
            #[cfg(feature = "oracle")]
            $body
        }
    };
}
