//! Stands in for `text_size.rs`, which is not among the papers: the cycles of text are document 01's extras, and no text is on the heap.
use crate::bytecode::Chunk;

#[derive(Clone)]
pub struct ChunkTextAnalysis {
    pub heap_alloc: u32,
    pub returns_text: bool,
    pub yields_text: bool,
}

pub fn analyze_chunk_text(_chunk: &Chunk, _returns_text: &[bool]) -> ChunkTextAnalysis {
    ChunkTextAnalysis {
        heap_alloc: 0,
        returns_text: false,
        yields_text: false,
    }
}

pub fn chunk_text_wcet_cycles_with_callees(
    chunk: &Chunk,
    _text_byte_cycles: u32,
    _returns_text: &[bool],
) -> Vec<u32> {
    chunk.extras.clone()
}
