//! What document 01 says of an image, judged from its bytes: the harness's own `check`.
//!
//! Written from document 01 alone, so that it can disagree with the port. The words in quotes are document 01's.

use std::ops::Range;

use crate::image::{HEADER, INVERSE, LARGEST, MAXIMA, NONE, SIZES, VERSION, kind, port, tag};

/// What `check` returns: `kind` is 1 flat, 2 layered, 0 refused.
#[derive(Clone, Copy, Debug, PartialEq, Eq)]
pub struct Answer {
    pub code: u32,
    pub place: u32,
    pub kind: u32,
}

pub const FLAT: u32 = 1;
pub const LAYERED: u32 = 2;

macro_rules! rules {
    ($($(#[$doc:meta])* $name:ident = $code:literal,)*) => {
        /// Every rule that an image can break. The code is the one that document 01 gives for it.
        #[derive(Clone, Copy, Debug, PartialEq, Eq, Hash, PartialOrd, Ord)]
        pub enum Rule { $($(#[$doc])* $name,)* }

        impl Rule {
            pub const ALL: &'static [Rule] = &[$(Rule::$name,)*];

            pub fn code(self) -> u32 {
                match self { $(Rule::$name => $code,)* }
            }
        }
    };
}

rules! {
    /// Output or a work buffer too short; no image breaks it.
    Room = 1,
    Short = 2,
    Mark = 3,
    Version = 3,
    NoInterface = 4,
    Maximum = 4,
    Length = 5,
    LayerParent = 6,
    LayerListPlace = 6,
    LayerListPast = 6,
    LayerListStage = 6,
    InterfaceKind = 6,
    InterfaceKey = 6,
    InterfaceListPlace = 6,
    InterfaceListPast = 6,
    InterfaceListCount = 6,
    InterfaceListStage = 6,
    InterfaceListLocal = 6,
    StageInterface = 6,
    StageLayer = 6,
    StageHeader = 6,
    StagePortsPlace = 6,
    StagePortsPast = 6,
    StagePortsCount = 6,
    StageDeclarationsPlace = 6,
    StageDeclarationsPast = 6,
    StageDeclarationsLocal = 6,
    StageStepsPlace = 6,
    StageStepsPast = 6,
    StageTransfer = 6,
    StageData = 6,
    StageDataAlone = 6,
    StageDataPast = 6,
    LocalType = 6,
    LocalFlags = 6,
    TypeUpright = 6,
    TypeInverted = 6,
    StepTag = 6,
    StepPortsPlace = 6,
    StepPortsPast = 6,
    StepPortsCount = 6,
    InvokeLocal = 6,
    TransferA = 6,
    TransferInterface = 6,
    DivergeTarget = 6,
    DivergeInterface = 6,
    DivergeDataAlone = 6,
    OtherB = 6,
    PortType = 6,
    PortKind = 6,
    PortB = 6,
    UnownedRef = 6,
    UnownedStep = 6,
    UnownedPort = 6,
    FlatTransfer = 7,
    StageListedByOther = 7,
    StageUnlisted = 7,
    /// An accepted image of the other kind; only the calls that take one kind refuse it.
    OtherKind = 7,
    ParentBelowChild = 8,
    LayerListsOther = 8,
    LayerListsTwice = 8,
    LayerListsNot = 8,
    InterfaceLayer = 8,
    TransferFromParent = 8,
    LayerEntered = 8,
    DivergeAncestor = 8,
}

/// A broken rule, and the place that goes with it.
type Refusal = (Rule, u32);

/// "check returns the kind (1 flat, 2 layered, 0 refused)".
pub fn check(image: &[u8]) -> Answer {
    answer(judge(image))
}

/// What `check` answers, and the rule that decided it.
pub fn explain(image: &[u8]) -> (Answer, Option<Rule>) {
    let judged = judge(image);
    (answer(judged), judged.err().map(|(rule, _)| rule))
}

/// What a call was lent beside the image.
#[derive(Clone, Copy, Debug, PartialEq, Eq)]
pub struct Room {
    /// The output's length in bytes.
    pub output: usize,
    /// Whether every work buffer has its stated length.
    pub work: bool,
}

/// What normalise answers before it works; code 0 where it goes on (to 0 or 9).
pub fn for_normalise(image: &[u8], room: Room) -> Answer {
    for_call(image, room, LAYERED)
}

/// What analyse answers before it works; code 0 where it goes on (to 0).
pub fn for_analyse(image: &[u8], room: Room) -> Answer {
    for_call(image, room, FLAT)
}

/// "The first that applies, in this order": room, then 2 to 6, then 7 also for the other kind, then 8.
fn for_call(image: &[u8], room: Room, takes: u32) -> Answer {
    if !enough(room) {
        return answer(Err((Rule::Room, 0)));
    }
    answer(judge_kind(image).and_then(|(sections, kind)| {
        require(kind == takes, Rule::OtherKind).map_err(in_general)?;
        sections.judge_layers(kind)
    }))
}

/// "output under 63,893 bytes, or a work buffer under its stated length".
fn enough(room: Room) -> bool {
    room.output >= LARGEST && room.work
}

fn answer(judged: Result<u32, Refusal>) -> Answer {
    match judged {
        Ok(kind) => Answer { code: 0, place: 0, kind },
        Err((rule, place)) => Answer { code: rule.code(), place, kind: 0 },
    }
}

fn judge(image: &[u8]) -> Result<u32, Refusal> {
    let (sections, kind) = judge_kind(image)?;
    sections.judge_layers(kind)
}

/// Everything that comes before the layer rules, and the kind.
fn judge_kind(image: &[u8]) -> Result<(Sections<'_>, u32), Refusal> {
    let sections = Sections::of(image).map_err(in_general)?;
    sections.judge_records()?;
    let kind = sections.judge_kind().map_err(in_general)?;
    Ok((sections, kind))
}

/// "Except for code 6, place is 0."
fn in_general(rule: Rule) -> Refusal {
    (rule, 0)
}

fn require(holds: bool, rule: Rule) -> Result<(), Rule> {
    if holds { Ok(()) } else { Err(rule) }
}

/// "Little-endian."
fn u16_at(record: &[u8], at: usize) -> u16 {
    u16::from_le_bytes([record[at], record[at + 1]])
}

fn u32_at(record: &[u8], at: usize) -> u32 {
    u32::from_le_bytes([record[at], record[at + 1], record[at + 2], record[at + 3]])
}

/// The records of an image whose header is good, section by section.
struct Sections<'a> {
    layers: &'a [[u8; 6]],
    interfaces: &'a [[u8; 9]],
    stages: &'a [[u8; 30]],
    locals: &'a [[u8; 7]],
    types: &'a [[u8; 2]],
    steps: &'a [[u8; 11]],
    ports: &'a [[u8; 9]],
    refs: &'a [[u8; 2]],
}

/// "Lists are laid end to end": where the next list of each section begins.
#[derive(Default)]
struct Running {
    refs: usize,
    steps: usize,
    ports: usize,
}

/// Takes a list off the front of what is left: "A first field must equal the running place", and a list may not be
/// "running past its section". The two rules are named by the record that owns the list.
fn take(
    list: Range<usize>,
    running: &mut usize,
    section: usize,
    [place, past]: [Rule; 2],
) -> Result<Range<usize>, Rule> {
    require(list.start == *running, place)?;
    require(list.end <= section, past)?;
    *running = list.end;
    Ok(list)
}

/// "Indices name existing records."
fn names(number: u16, count: usize) -> bool {
    (number as usize) < count
}

/// "65535 means 'none' in fields so marked (?)."
fn names_or_none(number: u16, count: usize) -> bool {
    number == NONE || names(number, count)
}

/// "flags u8 (bits 0..3: inv, fork, drop, self_inverse; others 0)".
fn good_flags(flags: u8) -> bool {
    flags < 16
}

/// "Counts 1, 2, any, 3, any." of an interface's list, by kind.
fn good_list_count(kind: u8, count: usize) -> bool {
    match kind {
        kind::UNCONDITIONAL => count == 1,
        kind::BRANCH => count == 2,
        kind::CLOSURE => count == 3,
        _ => true,
    }
}

/// "Header ports: 0, 1, 1 or more, 1, 1 or more, 2, 0, any."
fn good_header_ports(header: u8, count: usize) -> bool {
    match header {
        0 | 6 => count == 0,
        1 | 3 => count == 1,
        2 | 4 => count >= 1,
        5 => count == 2,
        _ => true,
    }
}

/// "ports 0,1,1,1,1,2", "ports 0 or 1" twice, then "2, 1+, 1, 1+, 2, 2, 2, 3, 1+, 1+, 1+, 2, 3".
fn good_step_ports(tag: u8, count: usize) -> bool {
    match tag {
        0 => count == 0,
        1..=4 => count == 1,
        5 => count == 2,
        6 | 7 => count <= 1,
        8 | 12..=14 | 19 => count == 2,
        10 => count == 1,
        15 | 20 => count == 3,
        _ => count >= 1,
    }
}

impl<'a> Sections<'a> {
    /// The header: codes 2 to 5, in that order.
    fn of(image: &'a [u8]) -> Result<Self, Rule> {
        require(image.len() >= HEADER, Rule::Short)?;
        require(&image[..3] == b"VIR", Rule::Mark)?;
        require(u16_at(image, 3) == VERSION, Rule::Version)?;
        let counts: [usize; 8] = std::array::from_fn(|i| u16_at(image, 5 + 2 * i) as usize);
        require(counts[1] != 0, Rule::NoInterface)?;
        require(counts.iter().zip(MAXIMA).all(|(&count, max)| count <= max), Rule::Maximum)?;
        let body: usize = counts.iter().zip(SIZES).map(|(&count, size)| count * size).sum();
        require(image.len() == HEADER + body, Rule::Length)?;

        let mut rest = &image[HEADER..];
        let mut section = |i: usize| {
            let (records, after) = rest.split_at(counts[i] * SIZES[i]);
            rest = after;
            records
        };
        Ok(Sections {
            layers: section(0).as_chunks().0,
            interfaces: section(1).as_chunks().0,
            stages: section(2).as_chunks().0,
            locals: section(3).as_chunks().0,
            types: section(4).as_chunks().0,
            steps: section(5).as_chunks().0,
            ports: section(6).as_chunks().0,
            refs: section(7).as_chunks().0,
        })
    }

    /// "a record breaks its rule; place = byte offset of the first in file order, or the image length if only an
    /// unowned list entry remains".
    fn judge_records(&self) -> Result<(), Refusal> {
        let mut running = Running::default();
        let mut place = HEADER;
        each(self.layers, &mut place, |layer| self.judge_layer(layer, &mut running))?;
        each(self.interfaces, &mut place, |interface| self.judge_interface(interface, &mut running))?;
        each(self.stages, &mut place, |stage| self.judge_stage(stage, &mut running))?;
        each(self.locals, &mut place, |local| self.judge_local(local))?;
        each(self.types, &mut place, judge_type)?;
        each(self.steps, &mut place, |step| self.judge_step(step, &mut running))?;
        each(self.ports, &mut place, |port| self.judge_port(port))?;
        let end = place + 2 * self.refs.len();
        self.judge_owned(&running).map_err(|rule| (rule, end as u32))
    }

    /// "layer 6: parent u16?, stage list first, count (u16 each, into refs)."
    fn judge_layer(&self, layer: &[u8; 6], running: &mut Running) -> Result<(), Rule> {
        require(names_or_none(u16_at(layer, 0), self.layers.len()), Rule::LayerParent)?;
        let rules = [Rule::LayerListPlace, Rule::LayerListPast];
        let list = take(range(layer, 2), &mut running.refs, self.refs.len(), rules)?;
        require(self.all_name(list, self.stages.len()), Rule::LayerListStage)
    }

    /// "A ref naming none" is the fault of the owner; here all of a list's refs name one of `count` records.
    fn all_name(&self, list: Range<usize>, count: usize) -> bool {
        self.refs[list].iter().all(|&entry| names(u16::from_le_bytes(entry), count))
    }

    /// "interface 9: layer u16?, kind u8, key u16 (0 unless Match), list first, count." "The layer is judged only by
    /// the layer rules."
    fn judge_interface(&self, interface: &[u8; 9], running: &mut Running) -> Result<(), Rule> {
        let kind = interface[2];
        require(kind <= kind::INSPECT, Rule::InterfaceKind)?;
        require(kind == kind::MATCH || u16_at(interface, 3) == 0, Rule::InterfaceKey)?;
        let rules = [Rule::InterfaceListPlace, Rule::InterfaceListPast];
        let list = take(range(interface, 5), &mut running.refs, self.refs.len(), rules)?;
        require(good_list_count(kind, list.len()), Rule::InterfaceListCount)?;
        match kind {
            kind::INSPECT => require(self.all_name(list, self.locals.len()), Rule::InterfaceListLocal),
            kind::CLOSURE => require(self.good_closure(list), Rule::InterfaceListStage),
            _ => require(self.all_name(list, self.stages.len()), Rule::InterfaceListStage),
        }
    }

    /// "Closure's second and third entry may be none."
    fn good_closure(&self, list: Range<usize>) -> bool {
        let entries = self.refs[list].iter().map(|&entry| u16::from_le_bytes(entry));
        entries.enumerate().all(|(i, stage)| names(stage, self.stages.len()) || (i > 0 && stage == NONE))
    }

    /// "stage 30: span u32, interface u16, layer u16?, header tag u8, key u32 (any), ports first, count, declarations
    /// first, count, steps first, count, wire counter u16, transfer interface u16?, transfer data u8".
    fn judge_stage(&self, stage: &[u8; 30], running: &mut Running) -> Result<(), Rule> {
        require(names(u16_at(stage, 4), self.interfaces.len()), Rule::StageInterface)?;
        require(names_or_none(u16_at(stage, 6), self.layers.len()), Rule::StageLayer)?;
        require(stage[8] <= 7, Rule::StageHeader)?;
        self.judge_stage_ports(stage, running)?;
        let rules = [Rule::StageDeclarationsPlace, Rule::StageDeclarationsPast];
        let list = take(range(stage, 17), &mut running.refs, self.refs.len(), rules)?;
        require(self.all_name(list, self.locals.len()), Rule::StageDeclarationsLocal)?;
        let rules = [Rule::StageStepsPlace, Rule::StageStepsPast];
        take(range(stage, 21), &mut running.steps, self.steps.len(), rules)?;
        Ok(())
    }

    /// "the header's ports; the transfer's data port follows them uncounted"; "transfer data u8 (0 or 1; 0 without
    /// transfer)".
    fn judge_stage_ports(&self, stage: &[u8; 30], running: &mut Running) -> Result<(), Rule> {
        let (ports, transfer, data) = (range(stage, 13), u16_at(stage, 27), stage[29]);
        require(names_or_none(transfer, self.interfaces.len()), Rule::StageTransfer)?;
        require(data <= 1, Rule::StageData)?;
        require(data == 0 || transfer != NONE, Rule::StageDataAlone)?;
        require(good_header_ports(stage[8], ports.len()), Rule::StagePortsCount)?;
        let rules = [Rule::StagePortsPlace, Rule::StagePortsPast];
        take(ports, &mut running.ports, self.ports.len(), rules)?;
        running.ports += data as usize;
        require(running.ports <= self.ports.len(), Rule::StageDataPast)
    }

    /// "local 7: span u32, type u16, flags u8".
    fn judge_local(&self, local: &[u8; 7]) -> Result<(), Rule> {
        require(self.names_type(u16_at(local, 4)), Rule::LocalType)?;
        require(good_flags(local[6]), Rule::LocalFlags)
    }

    /// "A type is a number below the type count, bit 15 for inverse."
    fn names_type(&self, ty: u16) -> bool {
        names(ty & !INVERSE, self.types.len())
    }

    /// "step 11: tag u8, a u32, b u16, ports first, count."
    fn judge_step(&self, step: &[u8; 11], running: &mut Running) -> Result<(), Rule> {
        let (tag, a, b, ports) = (step[0], u32_at(step, 1), u16_at(step, 5), range(step, 7));
        require(tag <= tag::BOOL_AND, Rule::StepTag)?;
        let count = ports.len();
        require(good_step_ports(tag, count), Rule::StepPortsCount)?;
        let rules = [Rule::StepPortsPlace, Rule::StepPortsPast];
        take(ports, &mut running.ports, self.ports.len(), rules)?;
        match tag {
            ..=tag::READ_WRITE => require(names(b, self.locals.len()), Rule::InvokeLocal),
            tag::TRANSFER => self.judge_transfer(a, b),
            tag::DIVERGE => self.judge_diverge(a, b, count),
            _ => require(b == 0, Rule::OtherB),
        }
    }

    /// "6 Transfer (a 0, b interface, ports 0 or 1)."
    fn judge_transfer(&self, a: u32, b: u16) -> Result<(), Rule> {
        require(a == 0, Rule::TransferA)?;
        require(names(b, self.interfaces.len()), Rule::TransferInterface)
    }

    /// "7 Diverge (a target layer, b interface?, ports 0 or 1, 0 without interface)." All 32 bits of `a` count.
    fn judge_diverge(&self, a: u32, b: u16, count: usize) -> Result<(), Rule> {
        require((a as usize) < self.layers.len(), Rule::DivergeTarget)?;
        require(names_or_none(b, self.interfaces.len()), Rule::DivergeInterface)?;
        require(b != NONE || count == 0, Rule::DivergeDataAlone)
    }

    /// "port 9: type u16, kind u8 (0..7), a u32, b u16. Wire: a span, b wire. Else a is carried through and b is 0."
    fn judge_port(&self, port: &[u8; 9]) -> Result<(), Rule> {
        require(self.names_type(u16_at(port, 0)), Rule::PortType)?;
        require(port[2] <= port::ERROR, Rule::PortKind)?;
        require(port[2] == port::WIRE || u16_at(port, 7) == 0, Rule::PortB)
    }

    /// Every entry of a list section belongs to a list.
    fn judge_owned(&self, running: &Running) -> Result<(), Rule> {
        require(running.steps == self.steps.len(), Rule::UnownedStep)?;
        require(running.ports == self.ports.len(), Rule::UnownedPort)?;
        require(running.refs == self.refs.len(), Rule::UnownedRef)
    }

    /// "Layered: layers above 0. Flat: layers 0, stage layers and transfers none, no Diverge." Without layers the
    /// records' own rules leave only a stage's transfer to be judged here.
    fn judge_kind(&self) -> Result<u32, Rule> {
        let layered = !self.layers.is_empty();
        let transfers = || self.stages.iter().map(|stage| u16_at(stage, 27));
        require(layered || transfers().all(|transfer| transfer == NONE), Rule::FlatTransfer)?;
        self.judge_listing()?;
        Ok(if layered { LAYERED } else { FLAT })
    }

    /// "each stage is listed by the interface in its own field and by no other"; it may be listed there repeatedly.
    fn judge_listing(&self) -> Result<(), Rule> {
        let mut listed = [false; MAXIMA[2]];
        for (number, interface) in self.interfaces.iter().enumerate() {
            if interface[2] == kind::INSPECT {
                continue;
            }
            for stage in self.entries(interface, 5).filter(|&stage| stage != NONE) {
                let own = u16_at(&self.stages[stage as usize], 4) as usize;
                require(own == number, Rule::StageListedByOther)?;
                listed[stage as usize] = true;
            }
        }
        require(listed[..self.stages.len()].iter().all(|&listed| listed), Rule::StageUnlisted)
    }

    /// The refs of a list whose record was found good; its place and count stand at `at`.
    fn entries(&self, record: &[u8], at: usize) -> impl Iterator<Item = u16> + use<'_> {
        self.refs[range(record, at)].iter().map(|&entry| u16::from_le_bytes(entry))
    }

    /// "a layer rule broken": 8. A flat image has no layers to judge.
    fn judge_layers(&self, kind: u32) -> Result<u32, Refusal> {
        if kind == LAYERED {
            self.judge_layer_rules().map_err(in_general)?;
        }
        Ok(kind)
    }

    fn judge_layer_rules(&self) -> Result<(), Rule> {
        // First, so that walking from a layer to its ancestors ends.
        self.judge_parents()?;
        self.judge_layer_lists()?;
        self.judge_interface_layers()?;
        self.judge_layer_steps()
    }

    fn parent(&self, layer: u16) -> u16 {
        u16_at(&self.layers[layer as usize], 0)
    }

    /// "a parent's number is below its child's".
    fn judge_parents(&self) -> Result<(), Rule> {
        let below = |layer: u16| self.parent(layer) == NONE || self.parent(layer) < layer;
        require((0..self.layers.len() as u16).all(below), Rule::ParentBelowChild)
    }

    /// "each stage is listed once in all, by the layer in its own field".
    fn judge_layer_lists(&self) -> Result<(), Rule> {
        let mut listed = [false; MAXIMA[2]];
        for (number, layer) in self.layers.iter().enumerate() {
            for stage in self.entries(layer, 2) {
                let own = u16_at(&self.stages[stage as usize], 6) as usize;
                require(own == number, Rule::LayerListsOther)?;
                require(!listed[stage as usize], Rule::LayerListsTwice)?;
                listed[stage as usize] = true;
            }
        }
        require(listed[..self.stages.len()].iter().all(|&listed| listed), Rule::LayerListsNot)
    }

    /// "every interface's layer exists (none is refused)".
    fn judge_interface_layers(&self) -> Result<(), Rule> {
        let exists = |interface: &[u8; 9]| names(u16_at(interface, 0), self.layers.len());
        require(self.interfaces.iter().all(exists), Rule::InterfaceLayer)
    }

    /// The rules of Transfer and Diverge steps, each standing in the layer of its stage.
    fn judge_layer_steps(&self) -> Result<(), Rule> {
        let mut entered = [0u16; MAXIMA[0]];
        for stage in self.stages {
            let layer = u16_at(stage, 6);
            for step in &self.steps[range(stage, 21)] {
                match step[0] {
                    tag::TRANSFER => self.judge_entering(layer, u16_at(step, 5), &mut entered)?,
                    tag::DIVERGE => self.judge_target(layer, u32_at(step, 1))?,
                    _ => {}
                }
            }
        }
        self.judge_entered(&entered)
    }

    /// "a Transfer step, standing in layer L, to an interface whose layer M has a parent needs that parent to be L".
    fn judge_entering(&self, layer: u16, interface: u16, entered: &mut [u16]) -> Result<(), Rule> {
        let inner = u16_at(&self.interfaces[interface as usize], 0);
        entered[inner as usize] += 1;
        let parent = self.parent(inner);
        require(parent == NONE || parent == layer, Rule::TransferFromParent)
    }

    /// "a Diverge names its own layer or an ancestor".
    fn judge_target(&self, layer: u16, target: u32) -> Result<(), Rule> {
        let mut at = layer;
        while at != NONE && at as u32 != target {
            at = self.parent(at);
        }
        require(at != NONE, Rule::DivergeAncestor)
    }

    /// "every layer with a parent is entered by exactly one Transfer step".
    fn judge_entered(&self, entered: &[u16]) -> Result<(), Rule> {
        let once = |layer: u16| self.parent(layer) == NONE || entered[layer as usize] == 1;
        require((0..self.layers.len() as u16).all(once), Rule::LayerEntered)
    }
}

/// "type 2: flag bytes of the upright and of the inverted type, each by the rule of a local's flags."
fn judge_type(ty: &[u8; 2]) -> Result<(), Rule> {
    require(good_flags(ty[0]), Rule::TypeUpright)?;
    require(good_flags(ty[1]), Rule::TypeInverted)
}

/// Judges a section's records in order; a fault's place is the start of its record. `place` moves past the section.
fn each<const SIZE: usize>(
    records: &[[u8; SIZE]],
    place: &mut usize,
    mut judge: impl FnMut(&[u8; SIZE]) -> Result<(), Rule>,
) -> Result<(), Refusal> {
    for record in records {
        judge(record).map_err(|rule| (rule, *place as u32))?;
        *place += SIZE;
    }
    Ok(())
}

/// The numbers that a list covers; its first and count fields stand at `at`.
fn range(record: &[u8], at: usize) -> Range<usize> {
    let first = u16_at(record, at) as usize;
    first..first + u16_at(record, at + 2) as usize
}
