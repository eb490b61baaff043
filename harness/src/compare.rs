//! A `check` against the harness's own, image by image: code, place and kind.

use std::{
    fmt::{self, Display},
    iter,
    sync::LazyLock,
};

use crate::{
    check::{Answer, check},
    generate::{
        self, Family, Layout, Rng, Size, breakable, byte_changes, deepest, exhaustive_records,
        exhaustive_small, fault, field_changes, grow, largest, section, valid,
    },
    image::{HEADER, Image, MAXIMA, NONE, SIZES, kind},
    samples::SAMPLES,
};

/// How many images were answered alike, by code.
#[derive(Clone, Debug, Default, PartialEq, Eq)]
pub struct Counts {
    pub codes: [u64; 9],
}

/// An image that is not answered alike.
#[derive(Clone, Debug, PartialEq, Eq)]
pub struct Difference {
    pub image: Vec<u8>,
    /// The answer of the check that is compared.
    pub asked: Answer,
    pub own: Answer,
}

/// Asks both checks about every image, up to the first difference.
pub fn compare(
    images: impl Iterator<Item = Vec<u8>>,
    asked: fn(&[u8]) -> Answer,
) -> Result<Counts, Difference> {
    let mut counts = Counts::default();
    for image in images {
        let (asked, own) = (asked(&image), check(&image));
        if asked != own {
            return Err(Difference { image, asked, own });
        }
        counts.codes[own.code as usize] += 1;
    }
    Ok(counts)
}

/// `n` images: the boundaries and the good ones, then an even spread over each enumeration, then planted faults, and
/// the families for all that is left. In a box, so that they are compiled here and not again by each that asks.
pub fn images(n: usize) -> Box<dyn Iterator<Item = Vec<u8>>> {
    let share = |twentieths: usize| n / 20 * twentieths;
    let all = boundaries()
        .chain(GOOD.iter().cloned())
        .chain(spread(exhaustive_records, share(6)))
        .chain(spread(small, share(2)))
        .chain(spread(|| GOOD.iter().flat_map(|image| byte_changes(image)), share(4)))
        .chain(spread(|| GOOD.iter().flat_map(|image| field_changes(image)), share(2)))
        .chain(spread(other_lengths, share(1)))
        .chain(faults().take(share(2)))
        .chain(families());
    Box::new(all.take(n))
}

/// At most `share` of all, evenly apart; they are counted when the first is asked for. The step is prime, so that it
/// keeps pace with no field that takes its values in turn.
pub(crate) fn spread<I: Iterator>(all: impl Fn() -> I, share: usize) -> impl Iterator<Item = I::Item> {
    let some = move || {
        let least = all().count().div_ceil(share.max(1)).max(1);
        let prime = |&n: &usize| (2..).take_while(|d| d * d <= n).all(|d| n % d != 0);
        let step = (least..).find(prime).expect("there is always a prime above");
        all().step_by(step).take(share)
    };
    iter::once_with(some).flatten()
}

/// Accepted images of both kinds, small enough that each of their bytes can be changed.
static GOOD: LazyLock<Vec<Vec<u8>>> = LazyLock::new(|| {
    let families = [Family::FlatSmall, Family::LayeredSmall, Family::LayeredAimed];
    let generated =
        families.into_iter().flat_map(|family| (0..6).map(move |seed| generate::image(family, seed)));
    SAMPLES.iter().map(|(_, make)| make().encode()).chain(generated).collect()
});

fn small() -> impl Iterator<Item = Vec<u8>> {
    exhaustive_small().map(|image| image.encode())
}

/// Every good image cut short at every length, and with some bytes too many.
fn other_lengths() -> impl Iterator<Item = Vec<u8>> {
    GOOD.iter().flat_map(|image| {
        (0..image.len() + 40).map(|length| {
            let mut bytes = image.clone();
            bytes.resize(length, 0);
            bytes
        })
    })
}

/// One rule after the other, broken in an image that keeps all before it.
fn faults() -> impl Iterator<Item = Vec<u8>> {
    (0..).flat_map(|seed| breakable().map(move |rule| fault(rule, seed).bytes))
}

fn families() -> impl Iterator<Item = Vec<u8>> {
    (0..).flat_map(|seed| Family::ALL.into_iter().map(move |family| generate::image(family, seed)))
}

/// Every count at its boundaries, in images of zeros and in valid ones, the largest, the deepest; each a byte off too.
fn boundaries() -> impl Iterator<Item = Vec<u8>> {
    let zeros = (0..8).flat_map(|section| {
        let max = MAXIMA[section];
        [0, 1, max - 1, max, max + 1, NONE as usize].map(|count| zeros(section, count))
    });
    let ends = [deepest(), largest(&mut Rng::new(0), false), largest(&mut Rng::new(0), true)];
    let valid = grown().chain(ends).map(|image| image.encode());
    let noise = [vec![], vec![255; HEADER - 1], vec![255; HEADER], vec![255; 100_000]];
    zeros.chain(valid).flat_map(a_byte_off).chain(noise)
}

/// An image of the right length with so many records of one section, and one interface: all zeros, but each a Match.
fn zeros(section: usize, count: usize) -> Vec<u8> {
    let mut counts = [0; 8];
    counts[section::INTERFACES] = 1;
    counts[section] = count;
    let mut bytes = b"VIR\x01\x00".to_vec();
    bytes.extend(counts.iter().flat_map(|&count| (count as u16).to_le_bytes()));
    bytes.resize(HEADER + counts.iter().zip(SIZES).map(|(count, size)| count * size).sum::<usize>(), 0);
    let layout = Layout::of(&bytes);
    for interface in 0..counts[section::INTERFACES] {
        bytes[layout.at(section::INTERFACES, interface) + 2] = kind::MATCH;
    }
    bytes
}

/// Valid images with one count just under its maximum and at it, and the same with one record more.
fn grown() -> impl Iterator<Item = Image> {
    let counts =
        |section: usize| (MAXIMA[section] - 1..=MAXIMA[section] + 1).map(move |count| (section, count));
    let flat = (1..8).flat_map(counts).map(|(section, count)| grown_to(section, count, false));
    flat.chain((0..8).flat_map(counts).map(|(section, count)| grown_to(section, count, true)))
}

fn grown_to(section: usize, count: usize, layered: bool) -> Image {
    let mut rng = Rng::new(count as u64);
    let mut image = valid(&mut rng, Size::Small, layered);
    // what a record of the section leans on
    for below in [section::TYPES, section::LOCALS, section::STAGES] {
        grow(&mut rng, &mut image, below, 1);
    }
    grow(&mut rng, &mut image, section, count);
    image
}

/// The image, with a byte less and with a byte more.
fn a_byte_off(image: Vec<u8>) -> impl Iterator<Item = Vec<u8>> {
    let shorter = image[..image.len() - 1].to_vec();
    let longer = [&image[..], &[0]].concat();
    [image, shorter, longer].into_iter()
}

impl Counts {
    pub fn images(&self) -> u64 {
        self.codes.iter().sum()
    }
}

impl Display for Counts {
    fn fmt(&self, f: &mut fmt::Formatter<'_>) -> fmt::Result {
        write!(f, "{} images answered alike; by code", self.images())?;
        for (code, count) in self.codes.iter().enumerate().filter(|&(code, _)| code != 1) {
            write!(f, "{} {code}: {count}", if code == 0 { "" } else { "," })?;
        }
        Ok(())
    }
}

impl Display for Difference {
    fn fmt(&self, f: &mut fmt::Formatter<'_>) -> fmt::Result {
        let Difference { image, asked, own } = self;
        let said = |Answer { code, place, kind }: &Answer| format!("code {code}, place {place}, kind {kind}");
        write!(f, "the port says {}, the harness says {}, ", said(asked), said(own))?;
        write!(f, "of {} bytes: ", image.len())?;
        image.iter().try_for_each(|byte| write!(f, "{byte:02x}"))
    }
}
