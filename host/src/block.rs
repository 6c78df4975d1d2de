//! The block file (document 01, "The block file"; document 02, K2, K3 and K10): its limits, reading with refusals 1 to 7, writing.

use crate::edition::{activity, has_wire_delays, max_switching, wire_length, MAX_EDITION};

pub const MAX_GATES: usize = 200;
pub const MAX_WIRES: usize = 600;
pub const MAX_STEPS: usize = 8;
/// Pairs of a curve: each of them ends some gate's step. The curve's two slices need so many elements.
pub const MAX_PAIRS: usize = MAX_GATES * MAX_STEPS;
/// Bytes of its standard input that the printing program reads.
pub const MAX_BYTES: usize = 16_384;
pub const MAX_DELAY: u32 = 4_095;
pub const MAX_WIRE_DELAY: u32 = 4_095;
pub const MAX_WIDTH: u32 = 4_095;
pub const MAX_DROP: u32 = 1_000;
pub const MAX_TIME: u32 = 65_535;
/// Ticks of all steps of a block: no list needs more.
pub const MAX_TICKS: u64 = MAX_PAIRS as u64 * MAX_WIDTH as u64;

/// `width` ticks whose drop is `drop` each.
#[derive(Clone, Copy, Debug, PartialEq, Eq)]
pub struct Step {
    pub width: u32,
    pub drop: u32,
}

/// A gate field: drawn delay, what the file says of its output, steps.
#[derive(Clone, Debug, PartialEq, Eq)]
pub struct Gate {
    pub delay: u32,
    /// The number that the file gives for the switching of a net: the probability of a 1 in 256ths up to edition 2, its
    /// measured activity from edition 3 on.
    pub switching: u32,
    pub steps: Vec<Step>,
}

impl Gate {
    /// The sum of the widths: the largest increase.
    pub fn widths(&self) -> u32 {
        self.steps.iter().map(|s| s.width).sum()
    }
}

/// A wire field. In edition 1 the delay is 0.
#[derive(Clone, Copy, Debug, PartialEq, Eq, PartialOrd, Ord, Hash)]
pub struct Wire {
    pub from: usize,
    pub to: usize,
    pub delay: u32,
}

impl Wire {
    pub fn without_delay(from: usize, to: usize) -> Wire {
        Wire { from, to, delay: 0 }
    }

    /// The two gates that it joins.
    pub fn ends(&self) -> (usize, usize) {
        (self.from, self.to)
    }
}

/// Whether a wire with the same two ends stands among the wires, whatever its delay.
pub fn stands_in(wires: &[Wire], wire: &Wire) -> bool {
    wires.iter().any(|w| w.ends() == wire.ends())
}

/// All that a block file says. `switching` is the input's.
#[derive(Clone, Debug, PartialEq, Eq)]
pub struct Block {
    pub edition: u8,
    pub arrival: u32,
    pub deadline: u32,
    pub switching: u32,
    pub gates: Vec<Gate>,
    pub wires: Vec<Wire>,
}

impl Block {
    /// Whether some wire has a delay above 0.
    pub fn is_delayed(&self) -> bool {
        self.wires.iter().any(|w| w.delay > 0)
    }

    /// The activity of the input.
    pub fn input_activity(&self) -> u32 {
        activity(self.edition, self.switching)
    }

    /// The activity of a gate's output.
    pub fn output_activity(&self, gate: usize) -> u32 {
        activity(self.edition, self.gates[gate].switching)
    }
}

/// A refusal: its number in document 01's table, and its place.
#[derive(Clone, Copy, Debug, PartialEq, Eq)]
pub struct Refusal {
    pub number: u32,
    pub place: u32,
}

pub fn refuse<T>(number: u32, place: usize) -> Result<T, Refusal> {
    Err(Refusal { number, place: place as u32 })
}

fn two_bytes(bytes: &[u8], at: usize) -> u32 {
    u32::from(bytes[at]) * 256 + u32::from(bytes[at + 1])
}

/// The delay in a wire's body of that length.
fn wire_delay(edition: u8, body: &[u8]) -> u32 {
    if has_wire_delays(edition) {
        two_bytes(body, 2)
    } else {
        0
    }
}

/// The body of the field at `offset`: short header (1), tag (2), length (3), short body (1), in this order.
fn body(file: &[u8], offset: usize, tag: u8, length_fits: impl Fn(usize) -> bool) -> Result<&[u8], Refusal> {
    if file.len() - offset < 3 {
        return refuse(1, offset);
    }
    if file[offset] != tag {
        return refuse(2, offset);
    }
    let length = two_bytes(file, offset + 1) as usize;
    if !length_fits(length) {
        return refuse(3, offset);
    }
    if file.len() - offset - 3 < length {
        return refuse(1, offset);
    }
    Ok(&file[offset + 3..offset + 3 + length])
}

/// What the block field at the front says, and the gate count; the gates and wires are still to come.
fn read_block_field(file: &[u8]) -> Result<(Block, usize), Refusal> {
    let body = body(file, 0, 1, |length| length == 8)?;
    let (edition, count) = (body[0], usize::from(body[1]));
    let (arrival, deadline, switching) = (two_bytes(body, 2), two_bytes(body, 4), two_bytes(body, 6));
    let in_range = (1..=MAX_EDITION).contains(&edition) && (1..=MAX_GATES).contains(&count);
    if !in_range || switching > max_switching(edition) {
        return refuse(4, 0);
    }
    Ok((Block { edition, arrival, deadline, switching, gates: Vec::new(), wires: Vec::new() }, count))
}

/// A gate field of a file of that edition, and the offset behind it.
fn read_gate(file: &[u8], offset: usize, edition: u8) -> Result<(Gate, usize), Refusal> {
    let fits = |length: usize| (0..=MAX_STEPS).any(|k| length == 4 + 4 * k);
    let body = body(file, offset, 2, fits)?;
    let mut steps = Vec::new();
    for step in body[4..].chunks(4) {
        steps.push(Step { width: two_bytes(step, 0), drop: two_bytes(step, 2) });
    }
    let gate = Gate { delay: two_bytes(body, 0), switching: two_bytes(body, 2), steps };
    let step_in_range = |s: &Step| (1..=MAX_WIDTH).contains(&s.width) && (1..=MAX_DROP).contains(&s.drop);
    let in_range = gate.delay <= MAX_DELAY && gate.switching <= max_switching(edition);
    if !in_range || !gate.steps.iter().all(step_in_range) {
        return refuse(4, offset);
    }
    if gate.steps.windows(2).any(|pair| pair[0].drop <= pair[1].drop) {
        return refuse(5, offset);
    }
    Ok((gate, offset + 3 + body.len()))
}

/// A wire field behind all that `block` says so far, and the offset behind it.
fn read_wire(file: &[u8], offset: usize, block: &Block) -> Result<(Wire, usize), Refusal> {
    if block.wires.len() == MAX_WIRES {
        return refuse(7, offset);
    }
    let body = body(file, offset, 3, |length| length == wire_length(block.edition))?;
    let (from, to) = (usize::from(body[0]), usize::from(body[1]));
    let wire = Wire { from, to, delay: wire_delay(block.edition, body) };
    if from.max(to) >= block.gates.len() || wire.delay > MAX_WIRE_DELAY {
        return refuse(4, offset);
    }
    if from == to || stands_in(&block.wires, &wire) {
        return refuse(6, offset);
    }
    Ok((wire, offset + 3 + body.len()))
}

/// What the file says, or the first of the refusals 1 to 7 that fits it.
pub fn decode(file: &[u8]) -> Result<Block, Refusal> {
    let (mut block, count) = read_block_field(file)?;
    let mut offset = 11;
    for _ in 0..count {
        let (gate, behind) = read_gate(file, offset, block.edition)?;
        block.gates.push(gate);
        offset = behind;
    }
    while offset < file.len() {
        let (wire, behind) = read_wire(file, offset, &block)?;
        block.wires.push(wire);
        offset = behind;
    }
    Ok(block)
}

fn put_two_bytes(file: &mut Vec<u8>, number: u32) {
    let number = u16::try_from(number).expect("a number of two bytes");
    file.extend_from_slice(&number.to_be_bytes());
}

fn put_header(file: &mut Vec<u8>, tag: u8, length: usize) {
    file.push(tag);
    put_two_bytes(file, length as u32);
}

fn put_wire(file: &mut Vec<u8>, edition: u8, wire: &Wire) {
    put_header(file, 3, wire_length(edition));
    file.push(u8::try_from(wire.from).expect("a gate number of one byte"));
    file.push(u8::try_from(wire.to).expect("a gate number of one byte"));
    if has_wire_delays(edition) {
        put_two_bytes(file, wire.delay);
    } else {
        assert_eq!(wire.delay, 0, "edition 1 has no wire delays");
    }
}

/// The file that says this. It tests no range, so that files with faults can be written too.
pub fn encode(block: &Block) -> Vec<u8> {
    let mut file = Vec::new();
    put_header(&mut file, 1, 8);
    file.push(block.edition);
    file.push(u8::try_from(block.gates.len()).expect("a gate count of one byte"));
    put_two_bytes(&mut file, block.arrival);
    put_two_bytes(&mut file, block.deadline);
    put_two_bytes(&mut file, block.switching);
    for gate in &block.gates {
        put_header(&mut file, 2, 4 + 4 * gate.steps.len());
        put_two_bytes(&mut file, gate.delay);
        put_two_bytes(&mut file, gate.switching);
        for step in &gate.steps {
            put_two_bytes(&mut file, step.width);
            put_two_bytes(&mut file, step.drop);
        }
    }
    for wire in &block.wires {
        put_wire(&mut file, block.edition, wire);
    }
    file
}
