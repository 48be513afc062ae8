//! The numbers with which a question is refused.

/// A number from 01's table "Numbers a caller may get back".
pub type Refusal = u64;

/// One link of the ordered chain of refusals: the first that holds is given.
pub fn refuse(no: Refusal, when: bool) -> Result<(), Refusal> {
    if when {
        Err(no)
    } else {
        Ok(())
    }
}
