//! Generated images of every family through the oracle: nothing panics, and everything that can come up does.

#[macro_use]
mod common;

live!(images_of_every_family, {
    use harness::{
        families::{Counts, walk},
        generate::Family,
    };
    let mut counts = Counts::default();
    for family in Family::ALL {
        let of_family = walk(family, 0..300);
        println!("{family:?}: {of_family}");
        counts += of_family;
    }
    println!("in all: {counts}");
    assert_eq!(counts.missing(), [""; 0], "what never came up");
});

live!(heavy_images_are_at_the_limits_or_light, {
    use harness::{
        bridge,
        generate::{Family, image},
        image::{Image, MAXIMA},
        report::KEPT,
    };
    let (mut incoming, mut diagnostics, mut stages, mut light) = (0, 0, 0, 0);
    for seed in 0..100 {
        let bytes = image(Family::FlatHeavy, seed);
        let image = Image::decode(&bytes);
        let report = bridge::report(&image, 0);
        incoming += u32::from(report.incoming.iter().any(|&count| count > 0xffff));
        diagnostics += u32::from(report.total as usize > KEPT);
        stages += u32::from(image.stages.len() == MAXIMA[2]);
        light += u32::from(bytes.len() <= 600);
    }
    println!(
        "incoming past 16 bits {incoming}, diagnostics past {KEPT} {diagnostics}, all stages {stages}, light {light}"
    );
    assert!([incoming, diagnostics, stages, light].iter().all(|&count| count > 0));
});

live!(all_small_images, {
    let counts = harness::families::walk_small();
    println!("{counts}");
    assert_eq!((counts.codes[0], counts.normalised), (497_184 + 53_676, 53_676));
    assert!(counts.verdicts.iter().chain(&counts.diagnostics).all(|&count| count > 0), "{counts}");
});
