//! Stand-in for the execution module, which planning does not use.

use crate::error::Result;
use crate::sql::engine::Transaction;
use crate::sql::planner::Plan;

pub struct ExecutionResult;

pub struct Executor<'a, T: Transaction>(&'a T);

impl<'a, T: Transaction> Executor<'a, T> {
    pub fn new(txn: &'a T) -> Self {
        Executor(txn)
    }

    pub fn execute(self, _: Plan) -> Result<ExecutionResult> {
        unreachable!("no plan is executed")
    }
}
