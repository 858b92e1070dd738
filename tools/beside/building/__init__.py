"""How `./rsp` proves and builds the program: crate by crate, the longest chain of crates first, in checkouts of its own."""
