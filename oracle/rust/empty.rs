//! Stands in for the modules `m` and `mc`, which are not at hand and which nothing else names.
