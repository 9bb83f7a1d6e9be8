//! The plan of a system, and the index map between its substations and the station above them.

use crate::controls::Command;
use crate::fragments::Row;

#[derive(Default)]
pub struct Plan {
    pub confirm_ms: u64,
    pub response_ms: u64,
    pub select_ms: u64,
    pub retries: u8,
    pub is_unsolicited: bool,
    /// For the first centre, and for the second.
    pub queues: [[usize; 9]; 2],
    pub substations: Vec<SubPlan>,
}

#[derive(Default)]
pub struct SubPlan {
    pub lanes: [usize; 9],
    /// The classes of the binaries, the counters and the analogs.
    pub classes: [Vec<u8>; 3],
    pub deadbands: Vec<u32>,
    pub outputs: u16,
    pub setpoints: u16,
    /// The index above of index 0, of binaries, counters, analogs, outputs and setpoints.
    pub base: [u16; 5],
}

/// The outputs and the setpoints stand behind the kinds of points.
const OUTPUTS: usize = 3;
const SETPOINTS: usize = 4;

impl SubPlan {
    fn counts(&self) -> [u16; 5] {
        let [binary, counter, analog] = &self.classes;
        [binary.len() as u16, counter.len() as u16, analog.len() as u16, self.outputs, self.setpoints]
    }
}

fn numbers<T: TryFrom<u64>>(value: &str) -> Option<Vec<T>> {
    let items = value.strip_prefix('[')?.strip_suffix(']')?;
    let items = items.split(',').map(str::trim).filter(|item| !item.is_empty());
    items.map(|item| T::try_from(item.parse().ok()?).ok()).collect()
}

fn set_outer(plan: &mut Plan, key: &str, value: &str) -> Option<()> {
    match key {
        "confirm_ms" => plan.confirm_ms = value.parse().ok()?,
        "response_ms" => plan.response_ms = value.parse().ok()?,
        "select_ms" => plan.select_ms = value.parse().ok()?,
        "retries" => plan.retries = value.parse().ok()?,
        "unsolicited" => plan.is_unsolicited = value.parse().ok()?,
        "queue" => plan.queues[0] = to_usize(value)?,
        "queue2" => plan.queues[1] = to_usize(value)?,
        _ => return None,
    }
    Some(())
}

fn to_usize(value: &str) -> Option<[usize; 9]> {
    let numbers: [u32; 9] = numbers(value)?.try_into().ok()?;
    Some(numbers.map(|number| number as usize))
}

fn set_inner(substation: &mut SubPlan, key: &str, value: &str) -> Option<()> {
    match key {
        "lanes" => substation.lanes = to_usize(value)?,
        "binary" => substation.classes[0] = numbers(value)?,
        "counter" => substation.classes[1] = numbers(value)?,
        "analog" => substation.classes[2] = numbers(value)?,
        "deadband" => substation.deadbands = numbers(value)?,
        "outputs" => substation.outputs = value.parse().ok()?,
        "setpoints" => substation.setpoints = value.parse().ok()?,
        "base" => substation.base = numbers(value)?.try_into().ok()?,
        _ => return None,
    }
    Some(())
}

/// The plan that a text says: a key and its value a line.
pub fn read(text: &str) -> Option<Plan> {
    let mut plan = Plan::default();
    for line in text.lines().map(str::trim).filter(|line| !line.is_empty()) {
        if line == "[[substation]]" {
            plan.substations.push(SubPlan::default());
            continue;
        }
        let (key, value) = line.split_once(" = ")?;
        match plan.substations.last_mut() {
            None => set_outer(&mut plan, key, value)?,
            Some(substation) => set_inner(substation, key, value)?,
        }
    }
    Some(plan)
}

/// Where a substation's indices of a kind stand above.
#[derive(Clone, Copy)]
struct Span {
    base: u16,
    count: u16,
    substation: u8,
}

/// Which index above stands for which index of a substation.
pub struct Map {
    /// By the substation's number.
    spans: Vec<[Span; 5]>,
    /// Of each kind, by rising base.
    orders: [Vec<Span>; 5],
}

impl Map {
    pub fn new(plan: &Plan) -> Map {
        let of = |(number, substation): (usize, &SubPlan)| {
            let counts = substation.counts();
            std::array::from_fn(|kind| Span { base: substation.base[kind], count: counts[kind], substation: number as u8 })
        };
        let spans: Vec<[Span; 5]> = plan.substations.iter().enumerate().map(of).collect();
        let orders = std::array::from_fn(|kind| {
            let mut order: Vec<Span> = spans.iter().map(|spans| spans[kind]).filter(|span| span.count > 0).collect();
            order.sort_by_key(|span| span.base);
            order
        });
        Map { spans, orders }
    }

    fn above(&self, substation: u8, kind: usize, index: u16) -> Option<u16> {
        let span = self.spans[usize::from(substation)][kind];
        (index < span.count).then(|| span.base + index)
    }

    fn below(&self, kind: usize, index: u16) -> Option<(u8, u16)> {
        let order = &self.orders[kind];
        let span = order[order.partition_point(|span| span.base <= index).checked_sub(1)?];
        (index - span.base < span.count).then(|| (span.substation, index - span.base))
    }

    pub fn row_above(&self, substation: u8, row: &Row) -> Option<Row> {
        let index = self.above(substation, usize::from(row.kind), row.index)?;
        Some(Row { index, ..*row })
    }

    pub fn row_below(&self, row: &Row) -> Option<(u8, Row)> {
        let (substation, index) = self.below(usize::from(row.kind), row.index)?;
        Some((substation, Row { index, ..*row }))
    }

    pub fn command_above(&self, substation: u8, command: Command) -> Option<Command> {
        let index = self.above(substation, kind_of(&command), index_of(&command))?;
        Some(with_index(command, index))
    }

    pub fn command_below(&self, command: Command) -> Option<(u8, Command)> {
        let (substation, index) = self.below(kind_of(&command), index_of(&command))?;
        Some((substation, with_index(command, index)))
    }
}

/// Whether both are for one output or setpoint.
pub fn is_same_point(one: &Command, other: &Command) -> bool {
    (kind_of(one), index_of(one)) == (kind_of(other), index_of(other))
}

fn kind_of(command: &Command) -> usize {
    match command {
        Command::Block { .. } => OUTPUTS,
        Command::Set16 { .. } | Command::Set32 { .. } => SETPOINTS,
    }
}

fn index_of(command: &Command) -> u16 {
    match *command {
        Command::Block { index, .. } | Command::Set16 { index, .. } | Command::Set32 { index, .. } => index,
    }
}

fn with_index(mut command: Command, new: u16) -> Command {
    match &mut command {
        Command::Block { index, .. } | Command::Set16 { index, .. } | Command::Set32 { index, .. } => *index = new,
    }
    command
}
