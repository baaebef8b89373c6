# Words for the GPU's two ports, and the waits before them.

# Waits until bit 26 of the status word is 1; `wait`: until a bit of $a0 is. After a wait that ended too early, later
# ones are shorter.
ready:
    lui $a0, 0x0400
wait:
    move $t2, $s3
wait_on:
    lw $t3, 4($s1)
    addiu $t2, $t2, -1
    and $t3, $t3, $a0
    bnez $t3, waited
    nop
    bnez $t2, wait_on
    nop
    addiu $s2, $s2, 1
    srl $s3, $s3, 1
    ori $s3, $s3, 0x100
waited:
    jr $ra
    nop

# Whole packets. The GPU has to be ready at the first word of each; the others fit into its queue of 16 words.
packets:
    jal ready
    nop
    lw $t0, 0($t8)
    nop
    srl $t0, $t0, 24
    addu $t0, $t0, $s7
    lbu $t1, 0($t0)
    nop
    subu $s6, $s6, $t1
packet_word:
    lw $t0, 0($t8)
    addu $t8, $t8, $t9
    addiu $t1, $t1, -1
    bnez $t1, packet_word
    sw $t0, 0($s1)
    bnez $s6, packets
    nop
    j next
    nop

# The beginning of a packet; `raw`: words that are written at once.
begun:
    jal ready
    nop
raw:
    lw $t0, 0($t8)
    addu $t8, $t8, $t9
    addiu $s6, $s6, -1
    bnez $s6, raw
    sw $t0, 0($s1)
    j next
    nop

# Data words of a load: in blocks of 16, as DMA writes them, when bit 28 is 1.
data:
    jal wait
    lui $a0, 0x1000
    sltiu $t2, $s6, 16
    bnez $t2, data_last
    move $t1, $s6
    addiu $t1, $zero, 16
data_last:
    subu $s6, $s6, $t1
data_word:
    lw $t0, 0($t8)
    addu $t8, $t8, $t9
    addiu $t1, $t1, -1
    bnez $t1, data_word
    sw $t0, 0($s1)
    bnez $s6, data
    nop
    j next
    nop

# Words of an open polyline: no status bit says when there is room for another one. Each waits 4,096 cycles, which is
# longer than the longest segment takes.
slow:
    jal pause
    lw $t0, 0($t8)
    addu $t8, $t8, $t9
    addiu $s6, $s6, -1
    bnez $s6, slow
    sw $t0, 0($s1)
    j next
    nop

pause:
    addiu $t2, $zero, 2048
pause_on:
    bnez $t2, pause_on
    addiu $t2, $t2, -1
    jr $ra
    nop

# A control word: after 4,096 cycles; when the GPU is ready; at once.
control_late:
    jal pause
    nop
    j control_now
    nop
control:
    jal ready
    nop
control_now:
    lw $t0, 0($t8)
    nop
    sw $t0, 4($s1)
    j next
    nop
