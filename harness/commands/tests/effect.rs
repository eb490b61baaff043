//! The port's effect tables and flags against the Rust's own: all 242 cells and all flags.

/// A test that asks both the Rust and the port; without either it counts as skipped.
macro_rules! compared {
    ($name:ident, $body:block) => {
        #[test]
        #[cfg_attr(
            not(all(feature = "oracle", feature = "port")),
            ignore = "Vine's sources or the port's library are not at hand"
        )]
        fn $name() {
            #[cfg(all(feature = "oracle", feature = "port"))]
            $body
        }
    };
}

compared!(join_and_union_are_the_rusts, {
    use harness::bridge::EFFECTS;
    use port::effect;
    let mut cells = 0;
    for a in EFFECTS {
        for b in EFFECTS {
            assert_eq!(effect::join(a as u8, b as u8), a.join(b) as u8, "{a:?}.join({b:?})");
            assert_eq!(effect::union(a as u8, b as u8), a.union(b) as u8, "{a:?}.union({b:?})");
            cells += 2;
        }
    }
    assert_eq!(cells, 242);
});

compared!(flags_are_the_rusts, {
    use harness::bridge::EFFECTS;
    use port::effect;
    for a in EFFECTS {
        assert_eq!(effect::flags(a as u8), [a.read(), a.pass(), a.barrier(), a.write()], "{a:?}");
    }
});

compared!(numbers_past_the_last_are_never, {
    use harness::bridge::Effect;
    use port::effect;
    let never = Effect::Never as u8;
    for n in never..=u8::MAX {
        assert_eq!(effect::join(0, n), never);
        assert_eq!(effect::union(0, n), 0);
    }
});
