//! Calls on a plan and at a place of a frame, with the refusals of documents 01 and 02 in their order: a state handed in is
//! tested anew, and the state after the call comes back.
use crate::dispersal::allowed;
use crate::plan::{self, Group, Place, SLOTS};
use crate::slot::{self, Code, Refused, DUMMY, FULL, LENGTH_WRONG, PLAN_WRONG, REGISTER_WRONG, TABLE_WRONG};
use crate::{ldpc, packets, tables};

/// A frame state: plan, settings, the next slot's number from 1, and the register.
#[derive(Clone, Copy, Debug, PartialEq)]
pub struct State<'a> {
    pub plan: &'a [Group],
    pub mask: u32,
    pub start: u32,
    pub slot: u32,
    pub register: u32,
}

impl<'a> State<'a> {
    /// The place of the next slot, or the first refusal that holds of the state itself.
    fn place(&self) -> Result<Place, u8> {
        if self.slot == 0 {
            return Err(PLAN_WRONG);
        }
        plan::accept(self.plan)?;
        let register_allowed = |register| allowed(slot::WIDTH, self.mask, register);
        if !register_allowed(self.start) || !register_allowed(self.register) {
            Err(REGISTER_WRONG)
        } else if self.slot as usize > SLOTS {
            Err(FULL)
        } else {
            Ok(plan::places(self.plan)[self.slot as usize - 1])
        }
    }

    /// The group of the next slot, which carries data, or the first refusal that holds of the state for a data call.
    fn group(&self) -> Result<&Group, u8> {
        let place = self.place()?;
        if place.data { Ok(&self.plan[place.group]) } else { Err(DUMMY) }
    }

    /// The code of the group at a data slot, or the first refusal that coding and reading share. Lengths are asked of the
    /// group, which fixes them.
    fn accept(&self, table: &[u16], lengths_hold: impl Fn(&Group) -> bool) -> Result<Code, u8> {
        let group = self.group()?;
        if !lengths_hold(group) {
            return Err(LENGTH_WRONG);
        }
        code_of(group.rows(), table)
    }

    /// The state one slot on, with the register there.
    fn after(&self, register: u32) -> State<'a> {
        State { slot: self.slot + 1, register, ..*self }
    }
}

fn code_of(rows: usize, table: &[u16]) -> Result<Code, u8> {
    let tables = tables::taken(&[rows], table).ok_or(TABLE_WRONG)?;
    Ok(tables.into_iter().map(Code::new).next().expect("one table"))
}

/// Copies the printed table of a rate.
pub fn published_table(rate: usize, table: &mut [u16]) -> u8 {
    match packets::packets_of(rate) {
        None => PLAN_WRONG,
        Some(_) => tables::copy([rate], table),
    }
}

/// Copies the printed tables of a plan's groups, in group order.
pub fn published_tables(plan: &[Group], tables: &mut [u16]) -> u8 {
    match plan::accept(plan) {
        Err(refused) => refused,
        Ok(()) => tables::copy(plan.iter().map(|group| group.rate), tables),
    }
}

/// What a slot is.
pub fn place(plan: &[Group], slot: u32) -> Result<Place, u8> {
    let before = slot.checked_sub(1).ok_or(PLAN_WRONG)?;
    plan::accept(plan)?;
    plan::places(plan).get(before as usize).copied().ok_or(FULL)
}

/// Opens a frame at slot 1 with the register at its start.
pub fn open(plan: &[Group], mask: u32, start: u32) -> Result<State<'_>, u8> {
    plan::accept(plan)?;
    if allowed(slot::WIDTH, mask, start) {
        Ok(State { plan, mask, start, slot: 1, register: start })
    } else {
        Err(REGISTER_WRONG)
    }
}

/// Passes a dummy, over which the register stands still.
pub fn pass<'a>(state: &State<'a>) -> Result<State<'a>, u8> {
    if state.place()?.data { Err(DUMMY) } else { Ok(state.after(state.register)) }
}

/// Codes the next slot.
pub fn code_slot<'a>(state: &State<'a>, table: &[u16], source: &[u8], coded: &mut [u8]) -> Result<State<'a>, u8> {
    let code = state.accept(table, |group| [source.len(), coded.len()] == [group.source_octets(), slot::OCTETS])?;
    let (made, register) = slot::code_slot(&code, state.mask, state.register, source);
    coded.copy_from_slice(&made);
    Ok(state.after(register))
}

/// Reads the next slot: its stuff bits, or why it is refused; and the state after it. A slot that fails a check moves the state
/// on all the same.
pub fn read_slot<'a>(
    state: &State<'a>,
    table: &[u16],
    coded: &[u8],
    source: &mut [u8],
) -> (Result<u8, Refused>, State<'a>) {
    let lengths_hold = |group: &Group| [source.len(), coded.len()] == [group.source_octets(), slot::OCTETS];
    let code = match state.accept(table, lengths_hold) {
        Ok(code) => code,
        Err(refused) => return (Err(refused.into()), *state),
    };
    let (read, register) = slot::read_slot(&code, state.mask, state.register, coded);
    let stuff = read.map(|read| {
        source.copy_from_slice(&read.source);
        read.stuff
    });
    (stuff, state.after(register))
}

/// The lone parity check.
pub fn check_parity(rate: usize, table: &[u16], coded: &[u8]) -> Result<(), Refused> {
    let rows = *ldpc::ROWS.get(rate.wrapping_sub(1)).ok_or(PLAN_WRONG)?;
    if coded.len() != slot::OCTETS {
        return Err(LENGTH_WRONG.into());
    }
    slot::check_parity(&code_of(rows, table)?, coded)
}

#[cfg(test)]
mod tests {
    use super::*;
    use crate::samples::{octets, MASK, START};
    use crate::slot::{NO_POSITION, PARITY_WRONG};
    use crate::tables::printed;
    use crate::vectors::with_parity_anew;

    fn state(plan: &[Group], slot: u32, register: u32) -> State<'_> {
        State { plan, mask: MASK, start: START, slot, register }
    }

    #[test]
    fn a_frame_opens_at_slot_1() {
        let good = plan::plan(&[(4, 7, 115), (2, 3, 5)]);
        assert_eq!(open(&good, MASK, START), Ok(state(&good, 1, START)));
        assert_eq!([open(&good, MASK, 0), open(&good[..1], MASK, 0), open(&[], MASK, 0)], [Err(6), Err(15), Err(1)]);
    }

    #[test]
    fn a_pass_moves_on_at_a_dummy_alone() {
        let plan = plan::plan(&[(4, 7, 115), (2, 3, 5)]);
        assert_eq!([0, 92, 116].map(|slot| pass(&state(&plan, slot, 9))), [Err(1), Err(2), Err(2)]);
        let moved = [Ok(state(&plan, 94, 9)), Ok(state(&plan, 121, 9)), Err(3)];
        assert_eq!([93, 120, 121].map(|slot| pass(&state(&plan, slot, 9))), moved);
        assert_eq!([0, 93].map(|slot| pass(&state(&plan[..1], slot, 9))), [Err(1), Err(15)]);
    }

    #[test]
    fn the_places_of_document_01() {
        let groups = plan::plan(&[(4, 7, 115), (2, 3, 5)]);
        let placed = |group, data| Ok(Place { group, data });
        assert_eq!([92, 93].map(|slot| place(&groups, slot)), [placed(0, true), placed(0, false)]);
        assert_eq!([117, 120].map(|slot| place(&groups, slot)), [placed(1, true), placed(1, false)]);
        assert_eq!([0, 121, u32::MAX].map(|slot| place(&groups, slot)), [Err(1), Err(3), Err(3)]);
        assert_eq!([0, 1, 121].map(|slot| place(&groups[..1], slot)), [Err(1), Err(15), Err(15)]);
    }

    #[test]
    fn printed_tables_are_copied_into_areas_of_their_length() {
        let groups = plan::plan(&[(4, 7, 115), (2, 3, 5)]);
        let mut tables = vec![0; 471 + 356];
        assert_eq!(published_tables(&groups, &mut tables), 0);
        assert_eq!(tables, printed([7, 3]));
        assert_eq!([published_tables(&groups, &mut tables[1..]), published_tables(&groups[..1], &mut [])], [4, 15]);
        assert_eq!((published_table(3, &mut tables[..356]), &tables[..356]), (0, &printed([3])[..]));
        assert_eq!([published_table(3, &mut []), published_table(0, &mut []), published_table(12, &mut [])], [4, 1, 1]);
    }

    #[test]
    fn a_damaged_slot_moves_the_reader_on() {
        let plan = plan::plan(&[(5, 11, 120)]);
        let (at, table, source) = (state(&plan, 120, 5), printed([11]), octets(1, 22 + 27 * 187));
        let (mut coded, mut found) = (vec![0; slot::OCTETS], octets(2, source.len()));
        let after = code_slot(&at, &table, &source, &mut coded).expect("a slot that is coded");
        assert_eq!(after.slot, 121);
        coded[slot::OCTETS - 1] ^= 1;
        let refused = Refused { number: PARITY_WRONG, position: 4113 };
        assert_eq!(read_slot(&at, &table, &coded, &mut found), (Err(refused), after));
        assert_eq!(found, octets(2, source.len()));
        coded[slot::OCTETS - 1] ^= 1;
        assert_eq!(read_slot(&at, &table, &coded, &mut found), (Ok(63), after));
        assert_eq!(found, source);
    }

    #[test]
    fn the_lone_check_tells_a_position_with_8_alone() {
        let code = code_of(41, &printed([1])).expect("a printed table");
        let (sound, table) = (with_parity_anew(&code, &octets(1, slot::OCTETS)), printed([1]));
        let mut broken = sound.clone();
        broken[slot::OCTETS - 1] ^= 0x81;
        let checked = |rate, table: &[u16], coded: &[u8]| Refused::told(&check_parity(rate, table, coded));
        assert_eq!(checked(1, &table, &sound), (0, NO_POSITION));
        assert_eq!(checked(1, &table, &broken), (8, 29545 - 7));
        assert_eq!(checked(1, &table[1..], &broken), (5, NO_POSITION));
        assert_eq!(checked(1, &table[1..], &broken[1..]), (4, NO_POSITION));
        assert_eq!([checked(0, &[], &[]), checked(12, &[], &[])], [(1, NO_POSITION); 2]);
    }

    /// The number and position of reading a slot of zeros, which no coder sends, into an area of so many octets, and whether
    /// the state moved on.
    fn read_into(table: &[u16], slot: u32, source: usize) -> ((u8, u16), bool) {
        let plan = plan::plan(&[(5, 1, 120)]);
        let at = state(&plan, slot, 5);
        let (read, after) = read_slot(&at, table, &[0; slot::OCTETS], &mut vec![0; source]);
        (Refused::told(&read), after != at)
    }

    #[test]
    fn what_is_refused_before_the_slot_is_looked_at_stays() {
        let table = printed([1]);
        assert_eq!(read_into(&table, 0, 1892), ((1, NO_POSITION), false));
        assert_eq!(read_into(&table, 121, 1892), ((3, NO_POSITION), false));
        assert_eq!(read_into(&[], 1, 1891), ((4, NO_POSITION), false));
        assert_eq!(read_into(&[], 1, 1892), ((5, NO_POSITION), false));
        assert_eq!(read_into(&table, 1, 1892), ((9, NO_POSITION), true));
    }
}
