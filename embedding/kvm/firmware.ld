/* The firmware from its first byte on, and its zeros behind: memory has zeros at first. */
ENTRY(boot)
SECTIONS
{
	. = 0x1000; /* FIRMWARE of ports.h */
	.text : { *(.start) *(.text*) }
	.data : { *(.rodata*) *(.data*) *(.bss*) *(COMMON) }
	/DISCARD/ : { *(.comment) *(.note*) *(.eh_frame*) }
	ASSERT(. < 0xe000, "no room for the stack")
}
