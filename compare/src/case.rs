//! One input: filed words, and the same module as the original holds it.
use crate::bytecode::{
    self, BlockType, ConstValue, ElementField, NewCompositeOperand, StructField,
};
use crate::form::{self, Constant};
use crate::kinds;
use crate::value_layout::CompositeKind;

pub struct Case {
    pub words: Vec<u32>,
    pub chunks: Vec<form::Chunk>,
    pub module: bytecode::Module,
    /// the list that is lent by chunk index: the callees' bytes to the stack walk, 1 for a callee that always yields to the test of yields
    pub callees: Vec<u32>,
}

impl Case {
    /// The words have to be a module.
    pub fn new(words: Vec<u32>, callees: Vec<u32>) -> Case {
        let Ok(chunks) = form::read(&words) else {
            panic!("these words are no module: {words:x?}")
        };
        let module = module(&chunks);
        Case {
            words,
            chunks,
            module,
            callees,
        }
    }

    pub fn of(chunks: &[form::Chunk]) -> Case {
        Case::new(form::write(chunks), Vec::new())
    }
}

/// The module of the original; its chunks are named by their index.
pub fn module(chunks: &[form::Chunk]) -> bytecode::Module {
    bytecode::Module {
        chunks: chunks
            .iter()
            .enumerate()
            .map(|(c, held)| chunk(c, held))
            .collect(),
        native_names: Vec::new(),
        signatures: Vec::new(),
        data_layout: None,
        word_bits_log2: 6,
        float_bits_log2: 6,
    }
}

fn chunk(c: usize, chunk: &form::Chunk) -> bytecode::Chunk {
    bytecode::Chunk {
        name: c.to_string(),
        block_type: [BlockType::Func, BlockType::Reentrant, BlockType::Stream]
            [usize::from(chunk.mode)],
        local_count: chunk.locals,
        constants: chunk
            .constants
            .iter()
            .map(|constant| match constant {
                Constant::Int(value) => ConstValue::Int(*value),
                Constant::Other => ConstValue::Other,
            })
            .collect(),
        ops: chunk.ops.iter().map(op).collect(),
        extras: chunk.extras.clone(),
        struct_templates: Vec::new(),
    }
}

/// The op of a kind with its fields; operands that the filed words have no place for are 0.
pub fn op(op: &form::Op) -> bytecode::Op {
    use bytecode::Op::*;
    let (a, b) = (op.a, op.b);
    match op.kind {
        kinds::CONST => Const(a),
        kinds::GET_LOCAL => GetLocal(a),
        kinds::SET_LOCAL => SetLocal(a),
        kinds::GET_DATA => GetData(a),
        kinds::SET_DATA => SetData(a),
        kinds::GET_DATA_INDEXED => GetDataIndexed(a, 0),
        kinds::SET_DATA_INDEXED => SetDataIndexed(a, 0),
        kinds::BOUNDS_CHECK => BoundsCheck(a),
        kinds::ADD => Add,
        kinds::SUB => Sub,
        kinds::MUL => Mul,
        kinds::DIV => Div,
        kinds::MOD => Mod,
        kinds::NEG => Neg,
        kinds::CMP_EQ => CmpEq,
        kinds::CMP_NE => CmpNe,
        kinds::CMP_LT => CmpLt,
        kinds::CMP_GT => CmpGt,
        kinds::CMP_LE => CmpLe,
        kinds::CMP_GE => CmpGe,
        kinds::NOT => Not,
        kinds::IF => If(a),
        kinds::ELSE => Else(a),
        kinds::END_IF => EndIf,
        kinds::LOOP => Loop(a),
        kinds::END_LOOP => EndLoop(a),
        kinds::BREAK => Break(a),
        kinds::BREAK_IF => BreakIf(a),
        kinds::STREAM => Stream,
        kinds::RESET => Reset,
        kinds::CALL => Call(a, b),
        kinds::RETURN => Return,
        kinds::YIELD => Yield,
        kinds::DUP => Dup,
        kinds::NEW_COMPOSITE => NewComposite(NewCompositeOperand::Boxed {
            kind: CompositeKind::from_tag(b).expect("one of four kinds"),
            count: a,
            meta: 0,
        }),
        kinds::GET_FIELD => GetField(StructField::Boxed { name_const: a }),
        kinds::GET_INDEX => GetIndex(ElementField(b == kinds::BOUNDED)),
        kinds::GET_TUPLE_FIELD => GetTupleField(a),
        kinds::GET_ENUM_FIELD => GetEnumField(a),
        kinds::LEN => Len,
        kinds::IS_ENUM => IsEnum(a, 0, 0),
        kinds::IS_STRUCT => IsStruct(a),
        kinds::INT_TO_FLOAT => IntToFloat,
        kinds::FLOAT_TO_INT => FloatToInt,
        kinds::WORD_TO_BYTE => WordToByte,
        kinds::BYTE_TO_WORD => ByteToWord,
        kinds::WORD_TO_FIXED => WordToFixed(b),
        kinds::FIXED_TO_WORD => FixedToWord(b),
        kinds::FIXED_MUL => FixedMul(b),
        kinds::FIXED_DIV => FixedDiv(b),
        kinds::TRAP => Trap(a),
        kinds::CHECKED_ADD => CheckedAdd,
        kinds::CHECKED_SUB => CheckedSub,
        kinds::CHECKED_MUL => CheckedMul(b),
        kinds::CHECKED_NEG => CheckedNeg,
        kinds::CHECKED_DIV => CheckedDiv(b),
        kinds::CHECKED_MOD => CheckedMod,
        kinds::PUSH_IMMEDIATE => PushImmediate(a),
        kinds::POP_N => PopN(b),
        kinds::BIT_AND => BitAnd,
        kinds::BIT_OR => BitOr,
        kinds::BIT_XOR => BitXor,
        kinds::SHL => Shl,
        kinds::SHR => Shr,
        kinds::CALL_VERIFIED_NATIVE => CallVerifiedNative(a, b),
        kinds::CALL_EXTERNAL_NATIVE => CallExternalNative(a, b),
        kind => panic!("{kind} is the kind of no op"),
    }
}

/// A chunk's ops as text, for a difference.
pub fn text(chunk: &form::Chunk) -> String {
    let ops: Vec<String> = chunk
        .ops
        .iter()
        .take(60)
        .map(|held| format!("{:?}", op(held)))
        .collect();
    let constants: Vec<String> = chunk
        .constants
        .iter()
        .take(20)
        .map(|constant| match constant {
            Constant::Int(value) => value.to_string(),
            Constant::Other => "other".to_string(),
        })
        .collect();
    format!(
        "type {}, locals {}, constants [{}], ops [{}], extras {:?}",
        chunk.mode,
        chunk.locals,
        constants.join(", "),
        ops.join(", "),
        &chunk.extras[..chunk.extras.len().min(20)]
    )
}
