//! What the original answers. This is a child of its module, so that it reaches the functions that are private there.
use super::*;
use crate::bytecode::{NOMINAL_COST_MODEL, VALUE_SLOT_SIZE_BYTES};
use crate::document::Refusal;
use crate::refusals::*;

/// The numbers of a line that the original has: cycles, peak and bytes.
pub const FIELDS: usize = 3;

/// The number behind some words of a message.
fn behind(message: &str, words: &str) -> usize {
    let rest = message
        .split_once(words)
        .expect("the message has these words")
        .1;
    let end = rest
        .find(|c: char| !c.is_ascii_digit())
        .unwrap_or(rest.len());
    rest[..end].parse().expect("a number stands there")
}

/// Document 01's number and place of an error, by its message.
fn refusal(error: VerifyError) -> Refusal {
    let message = error.message.as_str();
    if message == "Stream block missing Stream instruction" {
        Refusal(NO_STREAM, 0)
    } else if message == "Stream block missing Reset instruction" {
        Refusal(NO_RESET, 0)
    } else if message.contains("which is not a forward position") {
        Refusal(BACKWARD, behind(message, " at "))
    } else if message.starts_with("control-flow regions nest deeper") {
        Refusal(TOO_DEEP, 0)
    } else if message.starts_with("text operation at") {
        Refusal(OPEN_TEXT, behind(message, "instruction "))
    } else if message.contains("no statically extractable iteration bound") {
        Refusal(NO_COUNT, behind(message, "instruction "))
    } else {
        panic!("an error that document 01 has no number for: {message}")
    }
}

/// The range that `compute_chunk_wcmu` walks.
pub fn range(chunk: &Chunk) -> Result<(usize, usize), Refusal> {
    if chunk.block_type != BlockType::Stream {
        return Ok((0, chunk.ops.len()));
    }
    let stream = chunk.ops.iter().position(|op| matches!(op, Op::Stream));
    let reset = chunk.ops.iter().position(|op| matches!(op, Op::Reset));
    Ok((
        stream.ok_or(Refusal(NO_STREAM, 0))? + 1,
        reset.ok_or(Refusal(NO_RESET, 0))?,
    ))
}

/// `check_forward_control_flow_targets`
pub fn forward(chunk: &Chunk) -> Result<(), Refusal> {
    check_forward_control_flow_targets(chunk).map_err(refusal)
}

/// `wcet_region`, clamp off: the cycles, and whether the row ends.
pub fn cycles(chunk: &Chunk) -> Result<(u32, bool), Refusal> {
    let (start, end) = range(chunk)?;
    forward(chunk)?;
    let mut breaks = Vec::new();
    let model = &NOMINAL_COST_MODEL;
    let walk = wcet_region(chunk, start, end, &mut breaks, model, false, &chunk.extras);
    walk.map(|cost| (cost.cost, !cost.falls_through))
        .map_err(refusal)
}

/// The same walk over extras that have what each Call's callee adds in them, by the callees' figures: none where an extra would be open text for that.
pub fn cycles_over(chunk: &Chunk, callees: &[u32]) -> Option<u32> {
    let mut raised = chunk.clone();
    raised.extras.resize(chunk.ops.len(), 0);
    for (op, extra) in chunk.ops.iter().zip(&mut raised.extras) {
        if let Op::Call(callee, _) = op {
            let figure = callees.get(usize::from(*callee)).unwrap_or(&0);
            *extra = extra.checked_add(*figure).filter(|&sum| sum < u32::MAX)?;
        }
    }
    cycles(&raised).ok().map(|(cycles, _)| cycles)
}

/// The public entry: `wcet_stream_iteration` or `wcet_whole_chunk`.
pub fn public_cycles(chunk: &Chunk) -> Result<u32, Refusal> {
    match chunk.block_type {
        BlockType::Stream => wcet_stream_iteration(chunk),
        _ => wcet_whole_chunk(chunk),
    }
    .map_err(refusal)
}

/// `extract_loop_iteration_bound`
pub fn count(chunk: &Chunk, place: usize) -> Option<u32> {
    extract_loop_iteration_bound(chunk, place)
}

/// What `extract_loop_iteration_bound` takes the distance of: the start and the end of a loop that passes all its tests of header and tail.
pub fn ends(chunk: &Chunk, place: usize) -> Option<(i64, i64)> {
    let header = chunk.ops.get(place + 1..place + 5)?;
    let [
        Op::GetLocal(var),
        Op::GetLocal(end),
        Op::CmpGe,
        Op::BreakIf(_),
    ] = *header
    else {
        return None;
    };
    let stop = trace_const_set_local(chunk, place, end)?;
    let start = trace_const_set_local(chunk, place, var)?;
    let advances = loop_body_advances_induction(chunk, place, var, end);
    advances.then_some((start, stop))
}

/// Peak and delta by `wcmu_region` on the range of `compute_chunk_wcmu`, and bytes by the latter, with the callees' bytes as lent.
pub fn stack(chunk: &Chunk, callees: &[u32]) -> Result<(u32, Option<i32>, u32), Refusal> {
    let known: Vec<Option<(u32, u32)>> = callees.iter().map(|&bytes| Some((bytes, 0))).collect();
    let resolver = CallResolver {
        chunk_wcmu: &known,
        ..CallResolver::empty()
    };
    let slot = VALUE_SLOT_SIZE_BYTES;
    let ((bytes, _), _) = compute_chunk_wcmu(chunk, &resolver, &[], slot).map_err(refusal)?;
    let (start, end) = range(chunk)?;
    let mut breaks = Vec::new();
    let walk = wcmu_region(chunk, start, end, &mut breaks, &resolver, slot).map_err(refusal)?;
    Ok((walk.peak_above_initial, walk.delta, bytes))
}

/// The callees that a list has a 1 for, as the original has them.
pub fn listed(list: &[u32]) -> BTreeSet<usize> {
    (0..list.len()).filter(|&c| list[c] == 1).collect()
}

/// `analyze_yield_coverage` on the same range, from a start that has not yielded.
pub fn coverage(chunk: &Chunk, always: &BTreeSet<usize>) -> Result<Option<bool>, Refusal> {
    let (start, end) = range(chunk)?;
    forward(chunk)?;
    let ops = &chunk.ops;
    Ok(analyze_yield_coverage(
        ops,
        start,
        end,
        false,
        always,
        &mut Vec::new(),
    ))
}

/// `topological_call_order`, or the ring's chunk: chunks are named by their index.
pub fn order(module: &Module) -> Result<Vec<usize>, usize> {
    topological_call_order(module)
        .map_err(|error| error.chunk_name.parse().expect("a chunk's name"))
}

/// `module_wcmu`: the stack bytes by chunk index.
pub fn module_bytes(module: &Module) -> Option<Vec<u32>> {
    let answer = module_wcmu(module, &[]).ok()?;
    Some(answer.into_iter().map(|(stack, _)| stack).collect())
}

/// A whole module for the times: the order, and chunk after chunk in it the cycles behind the forward test, and one walk of the stack, whose bytes the chunks
/// after it look at. Cycles, peak and bytes by chunk index.
pub fn sheet(module: &Module) -> Option<Vec<u32>> {
    let slot = VALUE_SLOT_SIZE_BYTES;
    let mut known = vec![Some((0, 0)); module.chunks.len()];
    let mut lines = vec![0; FIELDS * module.chunks.len()];
    for c in order(module).ok()? {
        let chunk = &module.chunks[c];
        let (cost, _) = cycles(chunk).ok()?;
        let (start, end) = range(chunk).ok()?;
        let resolver = CallResolver {
            chunk_wcmu: &known,
            ..CallResolver::empty()
        };
        let walk = wcmu_region(chunk, start, end, &mut Vec::new(), &resolver, slot).ok()?;
        let bytes = (u32::from(chunk.local_count) + walk.peak_above_initial) * slot;
        let line = [cost, walk.peak_above_initial, bytes];
        lines[FIELDS * c..FIELDS * (c + 1)].copy_from_slice(&line);
        known[c] = Some((bytes, 0));
    }
    Some(lines)
}

/// `op_depth_effect`: what an op leaves of the depth.
pub fn net(op: &Op, chunk: &Chunk) -> i32 {
    op_depth_effect(op, chunk).1
}
