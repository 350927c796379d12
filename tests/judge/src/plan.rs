//! The plan: its commands, its fields, and the refusals 1 to 7 (document 01, "Plan and payload", "Refusals") and 18
//! (document 02, #108).

/// A refusal's number in documents 01 and 02.
pub type Refusal = u8;

pub const UNKNOWN_OR_SHORT: Refusal = 1;
pub const OUT_OF_ORDER: Refusal = 2;
pub const CELL_FIELD: Refusal = 3;
pub const FRAME_FIELD: Refusal = 4;
pub const HI_FIELD: Refusal = 5;
pub const USER_FIELD: Refusal = 6;
pub const USED_BEFORE: Refusal = 7;
pub const OUTSIDE_GRID: Refusal = 8;
pub const NO_ELEMENT: Refusal = 9;
pub const GRID_LENGTH: Refusal = 10;
pub const PAYLOAD_LENGTH: Refusal = 11;
pub const SPARE_BIT: Refusal = 12;
pub const NO_PAYLOAD: Refusal = 13;
/// Document 02, #108; the numbers between are those of other requests.
pub const SHORT_REGION: Refusal = 18;

/// N; "N = 6 joins the widths" by document 02, #102.
pub const WIDTHS: [usize; 6] = [6, 15, 25, 50, 75, 100];

pub const CELL: u8 = 0x10;
/// "Command 12 CELLX has the operands of CELL and a duration u8 [..], and stands in its place" (document 02, #108).
pub const CELLX: u8 = 0x12;
pub const FRAME: u8 = 0x11;
pub const HI: u8 = 0x20;
pub const USER: u8 = 0x30;
pub const END: u8 = 0x00;

/// The bytes of operands that follow a command byte; `None` for an unknown command.
pub fn operand_bytes(command: u8) -> Option<usize> {
    match command {
        CELL => Some(6),
        CELLX => Some(7),
        FRAME => Some(4),
        HI => Some(2),
        USER => Some(5),
        END => Some(0),
        _ => None,
    }
}

#[derive(Clone, Copy, Debug, PartialEq, Eq)]
pub struct Cell {
    /// C.
    pub identity: usize,
    /// N.
    pub blocks: usize,
    pub extended: bool,
    /// P.
    pub ports: usize,
    /// N_g in sixths.
    pub g: usize,
    /// Whether the PHICH duration is extended; that of CELL is normal.
    pub extended_phich: bool,
}

#[derive(Clone, Copy, Debug, PartialEq, Eq)]
pub struct Frame {
    /// F.
    pub frame: usize,
    /// f.
    pub subframe: usize,
    pub cfi: usize,
}

#[derive(Clone, Copy, Debug, PartialEq, Eq)]
pub struct HiCommand {
    pub group: usize,
    pub sequence: usize,
}

#[derive(Clone, Copy, Debug, PartialEq, Eq)]
pub struct UserCommand {
    pub rnti: usize,
    /// Q: bits of a symbol; "modulation 8 joins Q" by document 02, #109.
    pub bits: usize,
    pub first: usize,
    pub count: usize,
}

/// A plan that none of the plan's refusals applies to.
#[derive(Clone, Debug, PartialEq, Eq)]
pub struct Plan {
    pub cell: Cell,
    pub frame: Frame,
    pub his: Vec<HiCommand>,
    pub users: Vec<UserCommand>,
}

impl Cell {
    /// Symbols of a slot: 7, extended 6.
    pub fn slot_symbols(&self) -> usize {
        if self.extended {
            6
        } else {
            7
        }
    }

    /// S.
    pub fn symbols(&self) -> usize {
        2 * self.slot_symbols()
    }

    /// 12N.
    pub fn subcarriers(&self) -> usize {
        12 * self.blocks
    }

    /// "36×N×S×P bytes".
    pub fn grid_length(&self) -> usize {
        36 * self.blocks * self.symbols() * self.ports
    }

    /// PHICH units: ceil(gN/48).
    pub fn phich_units(&self) -> usize {
        (self.g * self.blocks).div_ceil(48)
    }

    /// PHICH groups: ceil(gN/48), "extended twice that".
    pub fn phich_groups(&self) -> usize {
        if self.extended {
            2 * self.phich_units()
        } else {
            self.phich_units()
        }
    }

    /// "sequences 0–7, extended 0–3".
    pub fn phich_sequences(&self) -> usize {
        if self.extended {
            4
        } else {
            8
        }
    }

    /// "normal unit = group, extended unit = groups 2m, 2m+1".
    pub fn phich_unit_of(&self, group: usize) -> usize {
        if self.extended {
            group / 2
        } else {
            group
        }
    }

    /// The centre 72 subcarriers, "from 6N−36".
    pub fn centre(&self) -> std::ops::Range<usize> {
        6 * self.blocks - 36..6 * self.blocks + 36
    }
}

/// The symbols of the control region: document 02, #102, "N = 6 joins the widths, and there the control region is
/// CFI + 1 symbols; at other widths it is CFI".
fn control_symbols(cell: &Cell, frame: &Frame) -> usize {
    if cell.blocks == 6 {
        frame.cfi + 1
    } else {
        frame.cfi
    }
}

impl Plan {
    pub fn control_symbols(&self) -> usize {
        control_symbols(&self.cell, &self.frame)
    }
}

/// CELL's operands, or CELLX's: "a duration u8 (0 normal, 1 extended)" more, which "above 1 is refused 3".
fn cell(operand: &[u8]) -> Result<Cell, Refusal> {
    let identity = 256 * operand[0] as usize + operand[1] as usize;
    let [blocks, prefix, ports, g] = [operand[2], operand[3], operand[4], operand[5]].map(usize::from);
    let duration = operand.get(6).copied().unwrap_or(0);
    let right = identity <= 503
        && WIDTHS.contains(&blocks)
        && [0, 1].contains(&prefix)
        && [1, 2, 4].contains(&ports)
        && [1, 3, 6, 12].contains(&g)
        && [0, 1].contains(&duration);
    if !right {
        return Err(CELL_FIELD);
    }
    Ok(Cell { identity, blocks, extended: prefix == 1, ports, g, extended_phich: duration == 1 })
}

fn frame(operand: &[u8], cell: &Cell) -> Result<Frame, Refusal> {
    let frame = 256 * operand[0] as usize + operand[1] as usize;
    let [subframe, cfi] = [operand[2], operand[3]].map(usize::from);
    if frame > 1023 || subframe > 9 || !(1..=3).contains(&cfi) {
        return Err(FRAME_FIELD);
    }
    let frame = Frame { frame, subframe, cfi };
    // "18, at FRAME after 4, when duration is extended and the control region is shorter than three symbols".
    if cell.extended_phich && control_symbols(cell, &frame) < 3 {
        return Err(SHORT_REGION);
    }
    Ok(frame)
}

fn hi(operand: &[u8], cell: &Cell, before: &[HiCommand]) -> Result<HiCommand, Refusal> {
    let hi = HiCommand { group: operand[0] as usize, sequence: operand[1] as usize };
    // "HI group or sequence beyond the count, or pair used before".
    if hi.group >= cell.phich_groups() || hi.sequence >= cell.phich_sequences() || before.contains(&hi) {
        return Err(HI_FIELD);
    }
    Ok(hi)
}

fn user(operand: &[u8], cell: &Cell, before: &[UserCommand]) -> Result<UserCommand, Refusal> {
    let rnti = 256 * operand[0] as usize + operand[1] as usize;
    let [bits, first, count] = [operand[2], operand[3], operand[4]].map(usize::from);
    if rnti == 0 || ![2, 4, 6, 8].contains(&bits) || count == 0 || first + count > cell.blocks {
        return Err(USER_FIELD);
    }
    // "RNTI or block used before".
    for other in before {
        let shared =
            (first..first + count).any(|block| (other.first..other.first + other.count).contains(&block));
        if other.rnti == rnti || shared {
            return Err(USED_BEFORE);
        }
    }
    Ok(UserCommand { rnti, bits, first, count })
}

/// The plan's own refusals: "first fault from left to right, in a command by number".
pub fn check(bytes: &[u8]) -> Result<Plan, Refusal> {
    let mut the_cell: Option<Cell> = None;
    let mut the_frame: Option<Frame> = None;
    let mut his: Vec<HiCommand> = Vec::new();
    let mut users: Vec<UserCommand> = Vec::new();
    let mut at = 0;
    loop {
        // 1: "unknown command, or the plan ends before its operands or before END".
        let Some(&command) = bytes.get(at) else { return Err(UNKNOWN_OR_SHORT) };
        let Some(size) = operand_bytes(command) else { return Err(UNKNOWN_OR_SHORT) };
        let Some(operand) = bytes.get(at + 1..at + 1 + size) else { return Err(UNKNOWN_OR_SHORT) };
        at += 1 + size;
        // 2: "Order: CELL, FRAME, any HIs, any USERs, END"; CELLX "stands in its place".
        match (command, the_cell, the_frame) {
            (CELL | CELLX, None, None) => the_cell = Some(cell(operand)?),
            (FRAME, Some(cell), None) => the_frame = Some(frame(operand, &cell)?),
            (HI, Some(cell), Some(_)) if users.is_empty() => his.push(hi(operand, &cell, &his)?),
            (USER, Some(cell), Some(_)) => users.push(user(operand, &cell, &users)?),
            (END, Some(cell), Some(frame)) => {
                // 2: "any byte after END, known command or not".
                if at < bytes.len() {
                    return Err(OUT_OF_ORDER);
                }
                return Ok(Plan { cell, frame, his, users });
            }
            _ => return Err(OUT_OF_ORDER),
        }
    }
}

/// The grid's length in bytes.
pub fn grid_length(plan: &[u8]) -> Result<usize, Refusal> {
    Ok(check(plan)?.cell.grid_length())
}
