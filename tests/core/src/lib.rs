//! Nothing but the tests of the binding, in tests/.
