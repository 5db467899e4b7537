//! `merge` is compiled with its hook for tests, which needs a file. Nothing private to it is used.
