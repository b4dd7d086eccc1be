//! Walks and deliveries.
use crate::language::{asked, Action};
use crate::memory::Memory;
use crate::snapshot::Snapshot;
use crate::unwinding::{Fault, Modules, Registers, State, RAX, RDX, RSP};

#[derive(Clone, Copy)]
pub enum Outcome {
    Installed(Registers),
    EndOfStack,
    FatalPhase1,
    FatalPhase2,
}

pub struct Delivery {
    pub visited: Vec<Registers>,
    /// The landing pad and the stack pointer of each cleanup.
    pub trail: Vec<(u64, u64)>,
    pub outcome: Outcome,
}

#[inline(never)]
pub fn walk<'a>(
    snapshot: &Snapshot,
    memory: &Memory<'a>,
    modules: &mut Modules<'a>,
) -> Result<Vec<Registers>, Fault> {
    let mut visited = Vec::new();
    let mut state = State { registers: snapshot.start, signal: snapshot.interrupted };
    for _ in 0..snapshot.limit {
        visited.push(state.registers);
        match modules.find(&state) {
            None => return Ok(visited),
            Some(fde) => modules.leave(memory, &mut state, &fde)?,
        }
    }
    Err(Fault::FrameLimit)
}

/// Where a pass stops: `None` at the end of the stack.
fn outwards<'a>(
    memory: &Memory<'a>,
    modules: &mut Modules<'a>,
    state: &mut State,
    limit: u32,
    mut visited: Option<&mut Vec<Registers>>,
) -> Result<Option<Action>, Fault> {
    for _ in 0..limit {
        if let Some(visited) = visited.as_mut() {
            visited.push(state.registers);
        }
        let Some(fde) = modules.find(state) else {
            return Ok(None);
        };
        match asked(memory, state, &fde)? {
            Action::Nothing => {}
            Action::Cleanup(_) if visited.is_some() => {}
            action => return Ok(Some(action)),
        }
        modules.leave(memory, state, &fde)?;
    }
    Err(Fault::FrameLimit)
}

/// How a later pass knows a frame.
fn kept(state: &State) -> u64 {
    state.registers.general[RSP].wrapping_sub(u64::from(state.signal))
}

#[inline(never)]
pub fn deliver<'a>(
    snapshot: &Snapshot,
    memory: &Memory<'a>,
    modules: &mut Modules<'a>,
) -> Result<Delivery, Fault> {
    let (mut visited, mut trail) = (Vec::new(), Vec::new());
    let mut state = State { registers: snapshot.start, signal: false };
    let limit = snapshot.limit;
    let outcome = match outwards(memory, modules, &mut state, limit, Some(&mut visited))? {
        None => Outcome::EndOfStack,
        Some(Action::Terminate) => Outcome::FatalPhase1,
        Some(_) => {
            let handler = kept(&state);
            state = State { registers: snapshot.start, signal: false };
            loop {
                let pad = match outwards(memory, modules, &mut state, limit, None)? {
                    None | Some(Action::Terminate | Action::Nothing) => break Outcome::FatalPhase2,
                    Some(Action::Cleanup(pad) | Action::Catch(pad)) => pad,
                };
                let is_handler = kept(&state) == handler;
                let registers = &mut state.registers;
                registers.general[RAX] = snapshot.exception;
                registers.general[RDX] = 0;
                registers.ra = pad;
                if is_handler {
                    break Outcome::Installed(*registers);
                }
                if trail.len() >= limit as usize {
                    return Err(Fault::PassLimit);
                }
                trail.push((pad, registers.general[RSP]));
                registers.ra = *snapshot.resumes.get(&pad).ok_or(Fault::NoResume(pad))?;
                state.signal = false;
            }
        }
    };
    Ok(Delivery { visited, trail, outcome })
}
