//! Stub: no expression is ever given.
use crate::error::Result;

#[derive(Debug, Clone)]
pub struct CompiledExpr;

impl CompiledExpr {
    pub fn eval(&self, _: &[f64]) -> f64 {
        unreachable!()
    }
}

pub struct Expr;

impl Expr {
    pub fn parse(_: &str) -> Result<Expr> {
        unreachable!()
    }
    pub fn eval_with(&self, _: impl Fn(&str) -> Option<f64>) -> Result<f64> {
        unreachable!()
    }
    pub fn eval_const(&self) -> Result<f64> {
        unreachable!()
    }
    pub fn compile(&self, _: &[&str], _: impl Fn(&str) -> Option<f64>) -> Result<CompiledExpr> {
        unreachable!()
    }
}

pub fn parse_number(_: &str) -> Option<f64> {
    unreachable!()
}

pub fn parse_number_lenient(_: &str) -> Option<f64> {
    unreachable!()
}
