ENTRY(_start)
SECTIONS {
  . = 0x80010000;
  .text : { *(.text.start) *(.text*) }
  .rodata : { *(.rodata*) }
  .data : { *(.data*) *(.sdata*) . = ALIGN(4); }
  __image_end = .;
  .bss : { __bss_start = .; *(.sbss*) *(.bss*) *(COMMON) . = ALIGN(4); __bss_end = .; }
  /DISCARD/ : { *(.reginfo) *(.MIPS*) *(.pdr) *(.comment) *(.gnu*) *(.mdebug*) }
}
