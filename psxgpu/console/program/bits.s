# Bits and symbols of packed orders; `unpack.s` has the registers.

# $v0: the next $t1 bits.
bits:
    move $v1, $ra
    jal refill
    nop
    addiu $t0, $zero, 1
    sllv $t0, $t0, $t1
    addiu $t0, $t0, -1
    and $v0, $a1, $t0
    srlv $a1, $a1, $t1
    jr $v1
    subu $a2, $a2, $t1

# Takes bytes until 25 bits are at hand.
refill:
    sltiu $t0, $a2, 25
    beqz $t0, refilled
    nop
    lbu $t0, 0($a0)
    addiu $a0, $a0, 1
    sllv $t0, $t0, $a2
    or $a1, $a1, $t0
    b refill
    addiu $a2, $a2, 8
refilled:
    jr $ra
    nop

# $v0: the next symbol, by the table at $t8.
decode:
    sltiu $t0, $a2, 16
    beqz $t0, decode_short
    move $v1, $ra
    jal refill
    nop
decode_short:
    andi $t0, $a1, 511
    sll $t0, $t0, 1
    addu $t0, $t0, $t8
    lhu $t0, 0($t0)
    nop
    beqz $t0, decode_long
    andi $t1, $t0, 15
    srlv $a1, $a1, $t1
    subu $a2, $a2, $t1
    jr $v1
    srl $v0, $t0, 4
decode_long:
    move $t1, $zero             # the code so far
    move $t2, $zero             # the first code of this length
    move $t3, $zero             # the index of its symbol
    addiu $t4, $t8, 1026
decode_bit:
    andi $t0, $a1, 1
    srl $a1, $a1, 1
    addiu $a2, $a2, -1
    or $t1, $t1, $t0
    lhu $t5, 0($t4)
    addiu $t4, $t4, 2
    addu $t6, $t2, $t5
    sltu $t0, $t1, $t6
    bnez $t0, decode_found
    nop
    addu $t3, $t3, $t5
    sll $t2, $t6, 1
    b decode_bit
    sll $t1, $t1, 1
decode_found:
    subu $t0, $t1, $t2
    addu $t0, $t0, $t3
    sll $t0, $t0, 1
    addu $t0, $t0, $t8
    lhu $v0, 1056($t0)
    jr $v1
    nop
