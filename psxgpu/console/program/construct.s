# Makes the table at $t8 of $t7 codes, whose lengths are at $t6.
construct:
    addiu $t0, $t8, 1056
    move $t1, $t8
construct_clear:
    sw $zero, 0($t1)
    addiu $t1, $t1, 4
    bne $t1, $t0, construct_clear
    nop
    move $t1, $t6
    addu $t2, $t6, $t7
construct_count:
    lbu $t0, 0($t1)
    addiu $t1, $t1, 1
    sll $t0, $t0, 1
    addu $t0, $t0, $t8
    lhu $t3, 1024($t0)
    nop
    addiu $t3, $t3, 1
    bne $t1, $t2, construct_count
    sh $t3, 1024($t0)
    sh $zero, 1024($t8)         # a code of no bits is none
    lui $t4, %hi(OFFSETS)
    addiu $t4, $t4, %lo(OFFSETS)
    move $t3, $zero
    move $t1, $t8
    addiu $t5, $t8, 32
construct_offset:
    sh $t3, 0($t4)              # where the symbols of a length begin
    lhu $t0, 1024($t1)
    addiu $t1, $t1, 2
    addiu $t4, $t4, 2
    bne $t1, $t5, construct_offset
    addu $t3, $t3, $t0
    addiu $t4, $t4, -32
    move $t1, $t6
    move $t3, $zero
construct_symbol:
    lbu $t0, 0($t1)
    addiu $t1, $t1, 1
    beqz $t0, construct_none
    sll $t0, $t0, 1
    addu $t0, $t0, $t4
    lhu $t5, 0($t0)
    nop
    addiu $v0, $t5, 1
    sh $v0, 0($t0)
    sll $t5, $t5, 1
    addu $t5, $t5, $t8
    sh $t3, 1056($t5)
construct_none:
    bne $t1, $t2, construct_symbol
    addiu $t3, $t3, 1
    move $t0, $zero             # the code
    addiu $t1, $zero, 1         # its length
    addiu $t2, $t8, 1056        # where its symbol is
construct_length:
    sll $t3, $t1, 1
    addu $t3, $t3, $t8
    lhu $t3, 1024($t3)
    nop
    beqz $t3, construct_longer
    nop
construct_code:
    lhu $t4, 0($t2)
    addiu $t2, $t2, 2
    sll $t4, $t4, 4
    or $t4, $t4, $t1
    move $t5, $zero             # its bits the other way around
    move $v0, $t0
    move $v1, $t1
construct_reverse:
    sll $t5, $t5, 1
    andi $at, $v0, 1
    or $t5, $t5, $at
    addiu $v1, $v1, -1
    bnez $v1, construct_reverse
    srl $v0, $v0, 1
    addiu $at, $zero, 2
    sllv $at, $at, $t1
    sll $t5, $t5, 1
    addu $t5, $t5, $t8
    addiu $v0, $t8, 1024
construct_entry:
    sh $t4, 0($t5)
    addu $t5, $t5, $at
    sltu $v1, $t5, $v0
    bnez $v1, construct_entry
    nop
    addiu $t3, $t3, -1
    bnez $t3, construct_code
    addiu $t0, $t0, 1
construct_longer:
    addiu $t1, $t1, 1
    sltiu $v0, $t1, 10
    bnez $v0, construct_length
    sll $t0, $t0, 1
    jr $ra
    nop
