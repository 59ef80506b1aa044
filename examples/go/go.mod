module unpack

go 1.19

require uimg v0.0.0

replace uimg => ../../bindings/go
