module celbpf.example/example

go 1.19

require celbpf.example/celbpf v0.0.0

replace celbpf.example/celbpf => ../celbpf
