//! Stands in for the passes that `verify` itself calls. Nothing that is compared comes here.
pub mod verify_init {
    pub fn verify_definite_initialization(
        _module: &crate::bytecode::Module,
    ) -> Result<(), crate::verify::VerifyError> {
        Ok(())
    }
}

pub mod verify_typed {
    pub fn typed_check_module(
        _module: &crate::bytecode::Module,
        _word_bytes: usize,
        _float_bytes: usize,
    ) -> Result<(), ()> {
        Ok(())
    }
}
