//! An image made smaller, one thing at a time, as long as it keeps what is asked for.

use crate::image::*;

/// Fewest bytes first, then fewest that are not 0, then the least numbers; a number's last byte weighs most.
pub fn weight(image: &[u8]) -> (usize, usize, Vec<u8>) {
    (image.len(), image.iter().filter(|&&byte| byte != 0).count(), image.iter().rev().copied().collect())
}

/// The least that comes of an accepted image; `keeps` is to refuse what is not accepted.
pub fn shrunk(mut image: Vec<u8>, keeps: impl Fn(&[u8]) -> bool) -> Vec<u8> {
    let smaller = |image: &Vec<u8>| {
        let removed = removals(&Image::decode(image)).into_iter().map(|image| image.encode());
        let own = weight(image);
        removed.chain(lowered(image)).find(|less| weight(less) < own && keeps(less))
    };
    while let Some(less) = smaller(&image) {
        image = less;
    }
    image
}

/// Bytes lowered: to 0 one, two or four at a time, or one by itself to something less; or two changed about.
fn lowered(image: &[u8]) -> impl Iterator<Item = Vec<u8>> {
    let with = |at: usize, bytes: &[u8]| {
        let mut less = image.to_vec();
        less[at..at + bytes.len()].copy_from_slice(bytes);
        less
    };
    let zeros = [4, 2, 1].into_iter().flat_map(move |n| {
        (HEADER..(image.len() + 1).saturating_sub(n)).rev().map(move |at| with(at, &vec![0; n]))
    });
    let less = move |at: usize| (1..image[at].min(16)).map(move |byte| with(at, &[byte]));
    let swapped = (HEADER + 1..image.len()).map(move |at| with(at - 1, &[image[at], image[at - 1]]));
    zeros.chain((HEADER..image.len()).flat_map(less)).chain(swapped)
}

/// Images with one record less, or one mention, and what goes with it.
fn removals(image: &Image) -> Vec<Image> {
    let mut all = vec![];
    let mut with = |change: &dyn Fn(&mut Image)| {
        let mut less = image.clone();
        change(&mut less);
        all.push(less);
    };
    let counts = image.counts();
    for n in 0..counts[2] {
        with(&|image| remove_stage(image, n));
    }
    for n in 0..counts[1] {
        with(&|image| remove_interface(image, n, NONE));
        for instead in (0..counts[1]).filter(|&other| other != n) {
            with(&|image| remove_interface(image, n, instead as u16));
        }
    }
    for n in 0..counts[0] {
        with(&|image| remove_layer(image, n));
    }
    for n in 0..counts[3] {
        with(&|image| remove_local(image, n));
    }
    for n in 0..counts[4] {
        with(&|image| remove_type(image, n));
    }
    for (n, interface) in image.interfaces.iter().enumerate() {
        for entry in 0..interface.list.len() {
            with(&|image| {
                image.interfaces[n].list.remove(entry);
                settle(&mut image.interfaces[n]);
            });
        }
    }
    for (n, stage) in image.stages.iter().enumerate() {
        with(&|image| (image.stages[n].header, image.stages[n].ports) = (header::BARE, vec![]));
        with(&|image| (image.stages[n].transfer, image.stages[n].data) = (NONE, None));
        with(&|image| image.stages[n].data = None);
        for port in 0..stage.ports.len() {
            with(&|image| {
                image.stages[n].ports.remove(port);
                image.stages[n].header = header::ENTRY;
            });
        }
        for declaration in 0..stage.declarations.len() {
            with(&|image| _ = image.stages[n].declarations.remove(declaration));
        }
        for (at, step) in stage.steps.iter().enumerate() {
            with(&|image| _ = image.stages[n].steps.remove(at));
            for port in 0..step.ports.len() {
                with(&|image| _ = image.stages[n].steps[at].ports.remove(port));
            }
            for tag in 0..step.tag {
                for count in 0..=step.ports.len() {
                    with(&|image| {
                        let step = &mut image.stages[n].steps[at];
                        step.tag = tag;
                        step.ports.truncate(count);
                    });
                }
            }
        }
    }
    all
}

/// What a number is when the record `gone` is no longer there: one less above it, `instead` for itself.
fn renumber(number: &mut u16, gone: usize, instead: u16) {
    let below = |n: u16| if n != NONE && n as usize > gone { n - 1 } else { n };
    *number = below(if *number as usize == gone { instead } else { *number });
}

/// The kind that fits how many stages are listed.
fn settle(interface: &mut Interface) {
    if interface.kind == kind::INSPECT {
        return;
    }
    interface.list.retain(|&stage| stage != NONE);
    interface.key = 0;
    interface.kind =
        [kind::MATCH, kind::UNCONDITIONAL, kind::BRANCH, kind::MATCH][interface.list.len().min(3)];
}

fn remove_stage(image: &mut Image, gone: usize) {
    image.stages.remove(gone);
    let owners = image.interfaces.iter_mut().filter(|interface| interface.kind != kind::INSPECT);
    for interface in owners {
        interface.list.iter_mut().for_each(|stage| renumber(stage, gone, NONE));
        settle(interface);
    }
    for layer in &mut image.layers {
        layer.stages.retain(|&stage| stage as usize != gone);
        layer.stages.iter_mut().for_each(|stage| renumber(stage, gone, NONE));
    }
}

/// With its stages; what went to it goes to another interface instead, or nowhere.
fn remove_interface(image: &mut Image, gone: usize, instead: u16) {
    while let Some(stage) = image.stages.iter().position(|stage| stage.interface as usize == gone) {
        remove_stage(image, stage);
    }
    image.interfaces.remove(gone);
    for stage in &mut image.stages {
        renumber(&mut stage.interface, gone, NONE);
        renumber(&mut stage.transfer, gone, instead);
        for step in stage.steps.iter_mut().filter(|step| matches!(step.tag, tag::TRANSFER | tag::DIVERGE)) {
            renumber(&mut step.b, gone, instead);
        }
        stage.steps.retain(|step| step.tag != tag::TRANSFER || step.b != NONE);
    }
}

/// What stands in it goes to its parent.
fn remove_layer(image: &mut Image, gone: usize) {
    let Layer { parent, stages } = image.layers.remove(gone);
    if let Some(layer) = image.layers.get_mut(parent as usize) {
        layer.stages.extend(stages);
    }
    image.layers.iter_mut().for_each(|layer| renumber(&mut layer.parent, gone, parent));
    image.interfaces.iter_mut().for_each(|interface| renumber(&mut interface.layer, gone, parent));
    for stage in &mut image.stages {
        renumber(&mut stage.layer, gone, parent);
        for step in stage.steps.iter_mut().filter(|step| step.tag == tag::DIVERGE) {
            let mut target = step.a as u16;
            renumber(&mut target, gone, parent);
            step.a = target.into();
        }
    }
}

/// With all that invokes, declares or inspects it.
fn remove_local(image: &mut Image, gone: usize) {
    image.locals.remove(gone);
    let of_inspects = image.interfaces.iter_mut().filter(|i| i.kind == kind::INSPECT).map(|i| &mut i.list);
    let of_stages = image.stages.iter_mut().map(|stage| &mut stage.declarations);
    for list in of_inspects.chain(of_stages) {
        list.retain(|&local| local as usize != gone);
        list.iter_mut().for_each(|local| renumber(local, gone, NONE));
    }
    for stage in &mut image.stages {
        stage.steps.retain(|step| step.tag >= tag::TRANSFER || step.b as usize != gone);
        let invocations = stage.steps.iter_mut().filter(|step| step.tag < tag::TRANSFER);
        invocations.for_each(|step| renumber(&mut step.b, gone, NONE));
    }
}

/// What was of it is of type 0.
fn remove_type(image: &mut Image, gone: usize) {
    image.types.remove(gone);
    let of_stages = image.stages.iter_mut().flat_map(|stage| {
        let of_steps = stage.steps.iter_mut().flat_map(|step| &mut step.ports);
        stage.ports.iter_mut().chain(&mut stage.data).chain(of_steps)
    });
    let of_ports = of_stages.map(|port| &mut port.ty);
    for ty in of_ports.chain(image.locals.iter_mut().map(|local| &mut local.ty)) {
        let mut number = *ty & !INVERSE;
        renumber(&mut number, gone, 0);
        *ty = number | *ty & INVERSE;
    }
}
