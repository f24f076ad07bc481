//! Stand-in for `bytes`: bytes that are shared and never change.
use std::ops::Deref;
use std::sync::Arc;

#[derive(Clone, Debug)]
pub struct Bytes(Arc<[u8]>);

impl From<&[u8]> for Bytes {
    fn from(bytes: &[u8]) -> Bytes {
        Bytes(bytes.into())
    }
}

impl Deref for Bytes {
    type Target = [u8];

    fn deref(&self) -> &[u8] {
        &self.0
    }
}
