# The player on the console. It reads a list of orders and writes their words to the GPU.
#
# An order is a tag: bits 24 to 29 are its kind, bits 0 to 23 a count n. A kind below WORDED has words:
#   n words after the tag;
#   if bit 31 of the tag is 1, one word instead: the address of n words earlier in the list;
#   if bit 30 is 1, one word instead, which is written n times.
# Other kinds may have words of their own after the tag.
#
# Registers with one meaning everywhere: $s0 the next order, $s1 the GPU's ports, $s2 how many waits ended before the
# GPU was ready, $s3 how many times a wait polls at most, $s4 the CRC of what was read, $s5 sum_table, $s6 n, $s7
# lengths, $t8 the next word of the order, $t9 the step from one word to the next.
#
# psxgpu.console.image lays tables and orders after this text: `kinds`, `lengths` (256 bytes), `sum_table` (256 words),
# `glyphs`, `wanted_sums`, and `orders`. Delay slots, of branches and of loads, are as written.

start:
    j begin
    nop
# At a fixed address, 80010008h, for whoever can read main memory.
result:
    .ascii "PSXT"
done:
    .word 0                     # 1: the orders are done
parts:
    .word 0                     # how many parts of video memory differ
reads:
    .word 0                     # 1: the words that were read differ
waits:
    .word 0                     # how many waits ended before the GPU was ready

begin:
    mtc0 $zero, $12             # no interrupts
    lui $sp, 0x801F
    ori $sp, $sp, 0xFF00
    lui $s1, 0x1F80
    ori $s1, $s1, 0x1810
    move $s2, $zero
    lui $s3, 0x0004
    addiu $s4, $zero, -1
    lui $s5, %hi(sum_table)
    addiu $s5, $s5, %lo(sum_table)
    lui $s7, %hi(lengths)
    addiu $s7, $s7, %lo(lengths)
    lui $s0, %hi(orders)
    addiu $s0, $s0, %lo(orders)

next:
    lw $t0, 0($s0)
    addiu $s0, $s0, 4
    sll $s6, $t0, 8
    srl $s6, $s6, 8
    srl $t1, $t0, 24
    andi $t1, $t1, 0x3F
    sltiu $t2, $t1, WORDED
    beqz $t2, go
    move $t8, $s0
    addiu $t9, $zero, 4
    srl $t2, $t0, 30
    beqz $t2, words_here
    sll $t3, $s6, 2
    addiu $s0, $s0, 4           # one word alone
    srl $t2, $t2, 1
    beqz $t2, go
    move $t9, $zero
    lw $t8, 0($t8)
    b go
    addiu $t9, $zero, 4
words_here:
    addu $s0, $s0, $t3
go:
    sll $t1, $t1, 2
    lui $t2, %hi(kinds)
    addu $t2, $t2, $t1
    lw $t2, %lo(kinds)($t2)
    nop
    jr $t2
    nop

end:
    lui $t1, %hi(waits)
    sw $s2, %lo(waits)($t1)
    addiu $t0, $zero, 1
    lui $t1, %hi(done)
    sw $t0, %lo(done)($t1)
end_on:
    b end_on
    nop
