//! The expansion that the crate runs before it resolves: trees made from rows have nothing to expand.

use crate::component::ComponentField;

pub fn expand(_fields: &mut [ComponentField<'_>]) {}
