module yoyoash.example

go 1.19
