module quick

go 1.19

require lerkvist.example/ipwire v0.5.0

replace lerkvist.example/ipwire => ../../bindings/go
