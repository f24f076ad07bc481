//! Stand-in: descriptors are not judged (docs/RULES.md, "Layouts"), so a loop of them is its bytes.

#[derive(Debug, Clone, Copy, PartialEq, Eq)]
pub struct DescriptorLoop<'a>(&'a [u8]);

impl<'a> DescriptorLoop<'a> {
    pub fn new(bytes: &'a [u8]) -> Self {
        Self(bytes)
    }

    pub fn raw(&self) -> &'a [u8] {
        self.0
    }

    pub fn len(&self) -> usize {
        self.0.len()
    }

    pub fn iter(&self) -> core::iter::Empty<crate::Result<AnyDescriptor<'a>>> {
        core::iter::empty()
    }
}

#[derive(Debug)]
pub struct AnyDescriptor<'a>(pub &'a [u8]);

#[derive(Debug)]
pub struct DescriptorRegistry;

impl DescriptorRegistry {
    pub fn parse_loop<'a>(&self, _bytes: &'a [u8]) -> core::iter::Empty<crate::Result<AnyDescriptor<'a>>> {
        core::iter::empty()
    }
}
