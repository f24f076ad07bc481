//! Stand-in: the `Complete*` views are no part of the port.
use crate::descriptors::DescriptorRegistry;

#[derive(Debug)]
pub struct CompleteSdt<'a>(core::marker::PhantomData<&'a ()>);

impl<'a> CompleteSdt<'a> {
    pub(crate) fn parse(_set: &'a super::CompleteSectionSet, _registry: Option<&'a DescriptorRegistry>) -> crate::Result<Self> {
        unreachable!("the views are left out")
    }
}
