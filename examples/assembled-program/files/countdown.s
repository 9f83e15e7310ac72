# counts from 3 down to 0
addi x5, x0, 3
addi x5, x5, -1
bne x5, x0, -4
ebreak
