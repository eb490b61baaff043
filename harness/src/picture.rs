//! The picture of the relations: docs/PICTURE.md's text, from the Rust's own relations and final effects.

use std::fmt::{self, Display, Formatter};

use crate::{
    bridge::{Analysis, Effect, Processed, analyse},
    image::{Image, Step, tag},
};

/// The picture of a flat image for one local; none if the local is not processed.
pub fn picture(image: &Image, local: u16) -> Option<String> {
    let analysis = analyse(image, 0);
    let processed = analysis.processed.iter().find(|processed| processed.local == local)?;
    let roles = roles(image, &analysis.incoming);
    debug_assert!(agree(&roles, &analysis), "the roles are those of the Rust's variables");
    Some(text(&roles, processed, &analysis.relations))
}

/// What a variable stands for. Numbers: an interface; a stage; a stage and a piece of it.
#[derive(Clone, Copy, Debug, PartialEq, Eq)]
pub enum Role {
    Pass,
    Interior(usize),
    Exterior(usize),
    Connected(usize),
    Disconnected(usize),
    InnerInterior(usize),
    InnerExterior(usize),
    Piece(usize, usize),
    Forward(usize, usize),
    Backward(usize, usize),
}

impl Role {
    /// Whether the Rust keeps the variable on record outside its relations.
    fn is_recorded(&self) -> bool {
        use Role::{Backward, Forward, InnerExterior, InnerInterior};
        !matches!(self, InnerInterior(_) | InnerExterior(_) | Forward(..) | Backward(..))
    }

    fn shape(&self) -> &'static str {
        match self {
            Role::Pass => "ellipse",
            Role::Interior(_) | Role::InnerInterior(_) => "house",
            Role::Exterior(_) | Role::InnerExterior(_) => "invhouse",
            Role::Connected(_) | Role::Disconnected(_) => "diamond",
            Role::Piece(..) => "box",
            Role::Forward(..) => "rarrow",
            Role::Backward(..) => "larrow",
        }
    }
}

impl Display for Role {
    fn fmt(&self, f: &mut Formatter<'_>) -> fmt::Result {
        match self {
            Role::Pass => write!(f, "pass"),
            Role::Interior(n) => write!(f, "i{n}inside"),
            Role::Exterior(n) => write!(f, "i{n}outside"),
            Role::Connected(n) => write!(f, "s{n}connected"),
            Role::Disconnected(n) => write!(f, "s{n}disconnected"),
            Role::InnerInterior(n) => write!(f, "s{n}inside"),
            Role::InnerExterior(n) => write!(f, "s{n}outside"),
            Role::Piece(n, piece) => write!(f, "s{n}piece{piece}"),
            Role::Forward(n, piece) => write!(f, "s{n}forward{piece}"),
            Role::Backward(n, piece) => write!(f, "s{n}backward{piece}"),
        }
    }
}

/// The role of each variable, in the order in which `build` makes them.
pub fn roles(image: &Image, incoming: &[u32]) -> Vec<Role> {
    let mut roles = vec![Role::Pass];
    roles.extend((0..image.interfaces.len()).flat_map(|n| [Role::Interior(n), Role::Exterior(n)]));
    for (n, stage) in image.stages.iter().enumerate() {
        if incoming[stage.interface as usize] == 0 {
            continue;
        }
        if !stage.declarations.is_empty() {
            roles.extend([Role::Connected(n), Role::Disconnected(n)]);
            roles.extend([Role::InnerInterior(n), Role::InnerExterior(n)]);
        }
        let pieces: Vec<&[Step]> = stage.steps.split(|step| step.tag == tag::TRANSFER).collect();
        let invoking = (0..pieces.len()).filter(|&piece| invokes(pieces[piece]));
        roles.extend(invoking.map(|piece| Role::Piece(n, piece)));
        roles.extend((1..pieces.len()).map(|piece| Role::Forward(n, piece)));
        roles.extend((0..pieces.len() - 1).rev().map(|piece| Role::Backward(n, piece)));
    }
    roles
}

fn invokes(piece: &[Step]) -> bool {
    piece.iter().any(|step| step.tag < tag::TRANSFER)
}

/// Whether the Rust's own records of its variables say the same as the roles.
pub fn agree(roles: &[Role], analysis: &Analysis) -> bool {
    let mut said = vec![(0, Role::Pass)];
    for (n, &(interior, exterior)) in analysis.transfers.iter().enumerate() {
        said.extend([(interior, Role::Interior(n)), (exterior, Role::Exterior(n))]);
    }
    for &(n, connected, disconnected) in &analysis.disconnects {
        said.extend([(connected, Role::Connected(n)), (disconnected, Role::Disconnected(n))]);
    }
    for (n, pieces) in analysis.pieces.iter().enumerate() {
        let own = pieces.iter().enumerate().filter(|&(_, &variable)| variable != 0);
        said.extend(own.map(|(piece, &variable)| (variable, Role::Piece(n, piece))));
    }
    let count = roles.iter().filter(|role| role.is_recorded()).count();
    let in_place = said.iter().all(|&(variable, role)| roles.get(variable) == Some(&role));
    roles.len() == analysis.variables && count == said.len() && in_place
}

/// The short names of effect.rs, in the order of the effects' numbers.
const NAMES: [&str; 11] = ["P", "B", "PB", "RP", "RB", "RPB", "BW", "PBW", "RBW", "RPBW", "X"];

const GRAPH: &str = "fontname=Helvetica nodesep=0.4 ranksep=0.8 outputorder=edgesfirst";
const NODE: &str = "fontname=Helvetica fontsize=12 width=1.2 style=filled fillcolor=white";
const EDGE: &str = "fontname=Helvetica fontsize=10 color=gray40";

fn text(roles: &[Role], processed: &Processed, relations: &[[usize; 4]]) -> String {
    let local = processed.local;
    let inverse = if processed.inverse { "inverse" } else { "" };
    let mut lines = vec![
        format!("digraph local{local} {{"),
        format!("graph [{GRAPH} label=local{local}{inverse}];"),
        format!("node [{NODE}];"),
        format!("edge [{EDGE}];"),
    ];
    lines.extend(roles.iter().zip(&processed.effects).enumerate().map(node));
    lines.extend(relations.iter().enumerate().flat_map(edges));
    lines.push("}\n".to_string());
    lines.join("\n")
}

fn node((n, (role, &effect)): (usize, (&Role, &Effect))) -> String {
    format!("v{n} [label={} xlabel={role} shape={}];", NAMES[effect as usize], role.shape())
}

fn edges((n, &[a, b, c, out]): (usize, &[usize; 4])) -> [String; 3] {
    [(a, 'a'), (b, 'b'), (c, 'c')].map(|(from, input)| {
        let style = if from == 0 { " style=dotted" } else { "" };
        format!("v{from} -> v{out} [label=r{n}{input}{style}];")
    })
}
