//! Shim: the step generators that `StarkInfo::new` calls and that are not among the six files.

use crate::starkinfo::{Program, StarkInfo};
use crate::starkinfo_codegen::Context;
use crate::types::PIL;
use anyhow::Result;

impl StarkInfo {
    pub fn generate_step3(
        &mut self,
        _ctx: &mut Context,
        _pil: &mut PIL,
        _program: &mut Program,
        _global_l1: Option<String>,
    ) -> Result<()> {
        unimplemented!("generate_step3 is not one of the six files")
    }

    pub fn generate_constraint_polynomial_verifier(
        &mut self,
        _ctx: &mut Context,
        _pil: &mut PIL,
        _program: &mut Program,
    ) -> Result<()> {
        unimplemented!("generate_constraint_polynomial_verifier is not one of the six files")
    }

    pub fn generate_fri_polynomial(
        &mut self,
        _ctx: &mut Context,
        _pil: &mut PIL,
        _program: &mut Program,
    ) -> Result<()> {
        unimplemented!("generate_fri_polynomial is not one of the six files")
    }

    pub fn generate_fri_verifier(
        &mut self,
        _ctx: &mut Context,
        _pil: &mut PIL,
        _program: &mut Program,
    ) -> Result<()> {
        unimplemented!("generate_fri_verifier is not one of the six files")
    }
}
