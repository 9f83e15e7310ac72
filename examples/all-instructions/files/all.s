# each form, with the words of the GNU assembler
add x1, x2, x3
sub x2, x9, x14
sll x3, x16, x25
slt x4, x23, x4
sltu x5, x30, x15
xor x6, x5, x26
srl x7, x12, x5
sra x8, x19, x16
or x9, x26, x27
and x10, x1, x6
mul x11, x8, x17
mulh x12, x15, x28
mulhsu x13, x22, x7
mulhu x14, x29, x18
div x15, x4, x29
divu x16, x11, x8
rem x17, x18, x19
remu x18, x25, x30
addw x19, x0, x9
subw x20, x7, x20
sllw x21, x14, x31
srlw x22, x21, x10
sraw x23, x28, x21
mulw x24, x3, x0
divw x25, x10, x11
divuw x26, x17, x22
remw x27, x24, x1
remuw x28, x31, x12
addi x31, x0, -5
slti x30, x1, 7
sltiu x29, x2, -2048
xori x28, x3, 2047
ori x27, x4, 0
andi x26, x5, -1
addiw x25, x6, 100
slli x6, x20, 63
srli x7, x19, 0
srai x8, x18, 33
slliw x9, x17, 31
srliw x10, x16, 1
sraiw x11, x15, 16
jalr x3, 0(x30)
lb x4, 8(x29)
lh x5, -8(x28)
lw x6, 2047(x27)
ld x7, -2048(x26)
lbu x8, 1(x25)
lhu x9, -1(x24)
lwu x10, 4(x23)
sb x9, -1(x15)
sh x10, 31(x16)
sw x11, -2048(x17)
sd x12, 2047(x18)
beq x1, x17, 16
bne x2, x18, -2
blt x3, x19, 4094
bge x4, x20, -4096
bltu x5, x21, 2048
bgeu x6, x22, -2048
jal x1, 16
lui x5, 0x12345
auipc x6, 0xfffff
csrrw x1, 0x305, x2
csrrs x2, 0x0, x3
csrrc x3, 0xfff, x4
csrrwi x4, 0x305, 3
csrrsi x5, 0x340, 0
csrrci x6, 0xf14, 31
fence 0x0, x0, x0
fence.i 0x0, x0, x0
ecall
ebreak
mret
wfi

addi x0, x31, 2047
addi x0, x31, -2048
slli x1, x1, 63
slliw x1, x1, 31
sd x31, -2048(x31)
ld x31, 2047(x31)
beq x31, x31, 4094
bgeu x31, x31, -4096
jal x31, 1048574
jal x0, -1048576
lui x31, 0xfffff
lui x0, 0x0
csrrw x31, 0xfff, x31
csrrwi x0, 0xfff, 31
fence 0xfff, x31, x30
fence.i 0xfff, x1, x2
.word 0xffffffff
.word 0x00000000

addi x5, x0, 0x7
addi x5, x0, 007
addi x5, x0, -0
lui x5, 74565
lui x5, 0xAbCdE
csrrw x1, 773, x2
slli x6, x5, 0x3f
ld x1, 0x8(x2)
  	addi	 x5,   x0,	-1 
addi x5, x0, -1# five
ecall # a, b, c
.word 31
