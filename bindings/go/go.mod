module lerkvist.example/ipwire

go 1.19
