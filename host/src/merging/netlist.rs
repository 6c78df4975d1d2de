//! Reading a block file into arrays, and the refusals 1 to 9.

use crate::block::{refuse, Refusal, MAX_DELAY, MAX_DROP, MAX_GATES};
use crate::block::{MAX_STEPS, MAX_WIDTH, MAX_WIRES, MAX_WIRE_DELAY};
use crate::edition::{activity, max_switching, wire_length, MAX_EDITION};

/// Words that have a bit for each gate.
const WORDS: usize = (MAX_GATES - 1) / u64::BITS as usize + 1;

/// A set of gates, a bit each.
#[derive(Clone, Copy)]
struct Gates([u64; WORDS]);

impl Gates {
    const NONE: Gates = Gates([0; WORDS]);

    /// The word of a gate, and its bit there.
    fn bit(gate: usize) -> (usize, u64) {
        (gate / u64::BITS as usize, 1 << (gate % u64::BITS as usize))
    }

    fn has(&self, gate: usize) -> bool {
        let (word, bit) = Gates::bit(gate);
        self.0[word] & bit != 0
    }

    fn add(&mut self, gate: usize) {
        let (word, bit) = Gates::bit(gate);
        self.0[word] |= bit;
    }

    fn add_all(&mut self, other: &Gates) {
        self.0.iter_mut().zip(other.0).for_each(|(word, more)| *word |= more);
    }

    fn is_empty(&self) -> bool {
        self.0 == [0; WORDS]
    }

    fn for_each(&self, mut action: impl FnMut(usize)) {
        for (i, mut word) in self.0.into_iter().enumerate() {
            while word != 0 {
                action(i * u64::BITS as usize + word.trailing_zeros() as usize);
                word &= word - 1;
            }
        }
    }
}

pub struct Netlist {
    edition: u8,
    /// The greatest number for the switching of a net in that edition.
    max_switching: u32,
    pub gates: usize,
    pub arrival: u32,
    pub deadline: u32,
    input: u32,
    pub delay: [u32; MAX_GATES],
    activity: [u32; MAX_GATES],
    /// The steps of gate g are `steps[step_from[g]..step_from[g + 1]]`, each a width and a drop.
    step_from: [u16; MAX_GATES + 1],
    steps: Vec<(u16, u16)>,
    /// The length of a wire's body: where it is 4, the wire's delay stands behind its two gates.
    wire_length: usize,
    pub wire: Vec<(u8, u8)>,
    pub wire_delay: Vec<u16>,
    /// For each gate those that a wire leads to from it.
    follows: Vec<Gates>,
}

fn two_bytes(bytes: &[u8]) -> u32 {
    u32::from(u16::from_be_bytes([bytes[0], bytes[1]]))
}

/// The body of the field at `offset`.
fn body(file: &[u8], offset: usize, tag: u8, lengths: impl Fn(usize) -> bool) -> Result<&[u8], Refusal> {
    let header = match file.get(offset..offset + 3) {
        Some(header) => header,
        None => return refuse(1, offset),
    };
    if header[0] != tag {
        return refuse(2, offset);
    }
    let length = two_bytes(&header[1..]) as usize;
    if !lengths(length) {
        return refuse(3, offset);
    }
    file.get(offset + 3..offset + 3 + length).map_or_else(|| refuse(1, offset), Ok)
}

impl Netlist {
    pub fn read(file: &[u8]) -> Result<Netlist, Refusal> {
        let header = body(file, 0, 1, |length| length == 8)?;
        let (gates, switching) = (usize::from(header[1]), two_bytes(&header[6..]));
        let edition = header[0];
        if edition == 0 || edition > MAX_EDITION || gates == 0 || gates > MAX_GATES {
            return refuse(4, 0);
        }
        if switching > max_switching(edition) {
            return refuse(4, 0);
        }
        let mut netlist = Netlist {
            edition,
            max_switching: max_switching(edition),
            gates,
            arrival: two_bytes(&header[2..]),
            deadline: two_bytes(&header[4..]),
            input: activity(edition, switching),
            delay: [0; MAX_GATES],
            activity: [0; MAX_GATES],
            step_from: [0; MAX_GATES + 1],
            steps: Vec::with_capacity(gates * MAX_STEPS),
            wire_length: wire_length(edition),
            wire: Vec::with_capacity(2 * gates),
            wire_delay: Vec::with_capacity(2 * gates),
            follows: vec![Gates::NONE; gates],
        };
        let mut offset = 11;
        for gate in 0..gates {
            offset = netlist.read_gate(file, offset, gate)?;
        }
        while offset < file.len() {
            offset = netlist.read_wire(file, offset)?;
        }
        Ok(netlist)
    }

    fn read_gate(&mut self, file: &[u8], offset: usize, gate: usize) -> Result<usize, Refusal> {
        let body = body(file, offset, 2, |length| length % 4 == 0 && (4..=4 + 4 * MAX_STEPS).contains(&length))?;
        let (delay, switching) = (two_bytes(body), two_bytes(&body[2..]));
        let mut out_of_range = delay > MAX_DELAY || switching > self.max_switching;
        let mut falls = true;
        let mut before = u32::MAX;
        for step in body[4..].chunks_exact(4) {
            let (width, drop) = (two_bytes(step), two_bytes(&step[2..]));
            out_of_range |= width.wrapping_sub(1) >= MAX_WIDTH || drop.wrapping_sub(1) >= MAX_DROP;
            falls &= drop < before;
            before = drop;
            self.steps.push((width as u16, drop as u16));
        }
        if out_of_range {
            return refuse(4, offset);
        }
        if !falls {
            return refuse(5, offset);
        }
        self.delay[gate] = delay;
        self.activity[gate] = activity(self.edition, switching);
        self.step_from[gate + 1] = self.steps.len() as u16;
        Ok(offset + 3 + body.len())
    }

    fn read_wire(&mut self, file: &[u8], offset: usize) -> Result<usize, Refusal> {
        if self.wire.len() == MAX_WIRES {
            return refuse(7, offset);
        }
        let body = body(file, offset, 3, |length| length == self.wire_length)?;
        let (from, to) = (usize::from(body[0]), usize::from(body[1]));
        let delay = if body.len() == 4 { two_bytes(&body[2..]) } else { 0 };
        if from >= self.gates || to >= self.gates || delay > MAX_WIRE_DELAY {
            return refuse(4, offset);
        }
        if from == to || self.follows[from].has(to) {
            return refuse(6, offset);
        }
        self.follows[from].add(to);
        self.wire.push((from as u8, to as u8));
        self.wire_delay.push(delay as u16);
        Ok(offset + 3 + body.len())
    }

    pub fn steps(&self, gate: usize) -> &[(u16, u16)] {
        &self.steps[usize::from(self.step_from[gate])..usize::from(self.step_from[gate + 1])]
    }

    /// The input activities of all gates.
    pub fn input_activities(&self) -> [u32; MAX_GATES] {
        let mut sums = [0; MAX_GATES];
        for &(from, to) in &self.wire {
            sums[usize::from(to)] += self.activity[usize::from(from)];
        }
        sums[0] = self.input;
        sums
    }

    /// Refusals 8 and 9.
    pub fn check_network(&self) -> Result<(), Refusal> {
        if self.has_loop() {
            return refuse(8, self.lowest_on_loop());
        }
        let mut led_to = Gates::NONE;
        self.follows.iter().for_each(|behind| led_to.add_all(behind));
        for gate in 0..self.gates {
            let fault_in = led_to.has(gate) == (gate == 0);
            let fault_out = self.follows[gate].is_empty() != (gate == self.gates - 1);
            if fault_in || fault_out {
                return refuse(9, gate);
            }
        }
        Ok(())
    }

    /// Takes away gates without a wire in as long as there are any.
    fn has_loop(&self) -> bool {
        let mut wires_in = [0u8; MAX_GATES];
        for &(_, to) in &self.wire {
            wires_in[usize::from(to)] += 1;
        }
        let mut ready = [0u8; MAX_GATES];
        let mut count = 0;
        for gate in (0..self.gates).filter(|&g| wires_in[g] == 0) {
            ready[count] = gate as u8;
            count += 1;
        }
        let mut done = 0;
        while done < count {
            let next = self.follows[usize::from(ready[done])];
            done += 1;
            next.for_each(|gate| {
                wires_in[gate] -= 1;
                if wires_in[gate] == 0 {
                    ready[count] = gate as u8;
                    count += 1;
                }
            });
        }
        done < self.gates
    }

    fn lowest_on_loop(&self) -> usize {
        let mut reaches = self.follows.clone();
        for middle in 0..self.gates {
            let beyond = reaches[middle];
            for row in reaches.iter_mut().filter(|row| row.has(middle)) {
                row.add_all(&beyond);
            }
        }
        (0..self.gates).find(|&g| reaches[g].has(g)).unwrap_or(0)
    }
}
