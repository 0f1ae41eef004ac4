//! Stands in for `bytecode.rs`, which is not among the papers: document 01's ops with their fields, and its table of cycles, growth and shrink. Of the rest
//! there is as much as `verify.rs` names.
use crate::value_layout::CompositeKind;

#[derive(Clone, Copy, Debug, PartialEq, Eq)]
pub enum BlockType {
    Func,
    Reentrant,
    Stream,
}

/// "kind 203 with a 0 is any constant that is no integer"
#[derive(Clone, Debug)]
pub enum ConstValue {
    Int(i64),
    Other,
}

/// `extras` is document 01's: it stands for what `text_size` works out.
#[derive(Clone, Debug)]
pub struct Chunk {
    pub name: String,
    pub block_type: BlockType,
    pub local_count: u16,
    pub constants: Vec<ConstValue>,
    pub ops: Vec<Op>,
    pub extras: Vec<u32>,
    pub struct_templates: Vec<()>,
}

pub struct Module {
    pub chunks: Vec<Chunk>,
    pub native_names: Vec<String>,
    pub signatures: Vec<Signature>,
    pub data_layout: Option<DataLayout>,
    pub word_bits_log2: u8,
    pub float_bits_log2: u8,
}

pub struct Signature {
    pub ret: WireShape,
}

#[derive(Clone, Copy)]
pub enum WireShape {
    Scalar { kind: u8 },
}

pub struct DataLayout {
    pub slots: Vec<()>,
    pub shared_layout: Vec<SharedSlotLayout>,
}

pub struct SharedSlotLayout {
    pub kind: u8,
    pub len: u16,
}

pub const SHARED_SLOT_COMPOSITE_FLAG: u8 = 128;

/// "34's kind", and a, the count
#[derive(Clone, Copy, Debug)]
pub enum NewCompositeOperand {
    Boxed {
        kind: CompositeKind,
        count: u16,
        meta: u16,
    },
}

impl NewCompositeOperand {
    pub fn kind(&self) -> CompositeKind {
        let Self::Boxed { kind, .. } = self;
        *kind
    }

    pub fn count(&self) -> u16 {
        let Self::Boxed { count, .. } = self;
        *count
    }
}

/// "36 GetIndex: b 1 (bounds outcome)"
#[derive(Clone, Copy, Debug)]
pub struct ElementField(pub bool);

impl ElementField {
    pub fn has_bounds_outcome(&self) -> bool {
        self.0
    }
}

#[derive(Clone, Copy, Debug)]
pub enum StructField {
    Boxed { name_const: u16 },
}

/// The two traps that take operands, by their pops in `op_depth_effect`: "8 gives 6/0/5, 9 gives 1/0/1".
pub enum TrapKind {
    IndexOutOfBounds,
    HostError,
}

impl TrapKind {
    pub fn code(&self) -> u16 {
        match self {
            TrapKind::IndexOutOfBounds => 8,
            TrapKind::HostError => 9,
        }
    }
}

/// The kinds 0 to 65 in their order.
#[derive(Clone, Debug)]
pub enum Op {
    Const(u16),
    GetLocal(u16),
    SetLocal(u16),
    GetData(u16),
    SetData(u16),
    GetDataIndexed(u16, u16),
    SetDataIndexed(u16, u16),
    BoundsCheck(u16),
    Add,
    Sub,
    Mul,
    Div,
    Mod,
    Neg,
    CmpEq,
    CmpNe,
    CmpLt,
    CmpGt,
    CmpLe,
    CmpGe,
    Not,
    If(u16),
    Else(u16),
    EndIf,
    Loop(u16),
    EndLoop(u16),
    Break(u16),
    BreakIf(u16),
    Stream,
    Reset,
    Call(u16, u8),
    Return,
    Yield,
    Dup,
    NewComposite(NewCompositeOperand),
    GetField(StructField),
    GetIndex(ElementField),
    GetTupleField(u16),
    GetEnumField(u16),
    Len,
    IsEnum(u16, u16, u16),
    IsStruct(u16),
    IntToFloat,
    FloatToInt,
    WordToByte,
    ByteToWord,
    WordToFixed(u8),
    FixedToWord(u8),
    FixedMul(u8),
    FixedDiv(u8),
    Trap(u16),
    CheckedAdd,
    CheckedSub,
    CheckedMul(u8),
    CheckedNeg,
    CheckedDiv(u8),
    CheckedMod,
    PushImmediate(u16),
    PopN(u8),
    BitAnd,
    BitOr,
    BitXor,
    Shl,
    Shr,
    CallVerifiedNative(u16, u8),
    CallExternalNative(u16, u8),
}

impl Op {
    /// "Ops as kind: cycles/growth/shrink."
    pub fn figures(&self) -> (u32, u32, u32) {
        use Op::*;
        match *self {
            Const(_) | GetLocal(_) | GetData(_) | Dup | PushImmediate(_) => (1, 1, 0),
            SetLocal(_) | SetData(_) | If(_) | BreakIf(_) => (1, 0, 1),
            GetDataIndexed(..) => (8, 5, 0),
            SetDataIndexed(..) => (8, 4, 0),
            BoundsCheck(_) => (7, 5, 0),
            Add | Sub | Mul | CmpEq | CmpNe | CmpLt | CmpGt | CmpLe | CmpGe | FixedMul(_)
            | BitAnd | BitOr | BitXor | Shl | Shr => (2, 0, 1),
            Div | Mod => (5, 1, 0),
            Neg | Return | GetTupleField(_) | GetEnumField(_) | Len | IntToFloat | FloatToInt
            | WordToByte | ByteToWord | WordToFixed(_) | FixedToWord(_) => (2, 0, 0),
            Not | Else(_) | EndIf | Loop(_) | EndLoop(_) | Break(_) | Stream | Reset | Yield => {
                (1, 0, 0)
            }
            Call(_, b) => (10, 1, u32::from(b)),
            NewComposite(operand) => (5, 1, u32::from(operand.count())),
            GetField(_) => (3, 0, 0),
            GetIndex(ElementField(true)) => (8, 5, 0),
            GetIndex(ElementField(false)) => (2, 0, 1),
            IsEnum(..) | IsStruct(_) => (3, 1, 0),
            FixedDiv(_) | CheckedAdd | CheckedSub | CheckedMul(_) | CheckedDiv(_) | CheckedMod => {
                (2, 1, 0)
            }
            CheckedNeg => (2, 2, 0),
            Trap(8) => (6, 0, 5),
            Trap(9) => (1, 0, 1),
            Trap(_) => (1, 0, 0),
            PopN(b) => (1, 0, u32::from(b)),
            CallVerifiedNative(_, b) | CallExternalNative(_, b) => {
                (10, if b & 128 == 0 { 1 } else { 2 }, u32::from(b % 128))
            }
        }
    }

    pub fn stack_growth(&self) -> u32 {
        self.figures().1
    }

    pub fn stack_shrink(&self) -> u32 {
        self.figures().2
    }

    /// "heap left out"
    pub fn heap_alloc(&self, _chunk: &Chunk) -> u32 {
        0
    }
}

pub struct CostModel {
    pub value_slot_bytes: u32,
    pub op_cycles: fn(&Op) -> u32,
    pub text_byte_cycles: u32,
}

impl CostModel {
    pub fn cycles(&self, op: &Op) -> u32 {
        (self.op_cycles)(op)
    }
}

/// "32 times (locals + peak)"
pub const VALUE_SLOT_SIZE_BYTES: u32 = 32;

pub const NOMINAL_COST_MODEL: CostModel = CostModel {
    value_slot_bytes: VALUE_SLOT_SIZE_BYTES,
    op_cycles: |op| op.figures().0,
    text_byte_cycles: 0,
};
