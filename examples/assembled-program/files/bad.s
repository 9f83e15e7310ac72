addi x5, x0, 3

fly x1
