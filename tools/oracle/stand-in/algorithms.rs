//! Stand-in for a module that the lig/kern text does not use.
