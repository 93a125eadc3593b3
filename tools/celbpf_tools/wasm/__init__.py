"""The WebAssembly module of the proved calls, and the comparison of its answers with the programs'."""
