module celbpf.example/celbpf

go 1.19
