/* Where the parts of a program stand in the board's RAM: the start file at 0, the stack down from the end. */
OUTPUT_FORMAT("elf64-powerpcle")
ENTRY(start)
MEMORY { ram : ORIGIN = 0, LENGTH = 16M }
PHDRS { code PT_LOAD FLAGS(5); data PT_LOAD FLAGS(6); }
SECTIONS
{
        /* What ld would else lay before .text, as .note.gnu.build-id, or what nothing reads here. */
        /DISCARD/ : { *(.note .note.* .comment .eh_frame .eh_frame_hdr .gnu.attributes) }
        .text 0 : { *(.start) *(.text .text.* .sfpr .glink) } > ram : code
        .rodata : { *(.rodata .rodata.*) } > ram : code
        /* What is stored to begins in a block of 64 bytes of its own: a store marks its whole block, and the run stops where
           code of a marked block is fetched. Each of the two says so, since ld leaves out one that is empty. */
        .data : ALIGN(64) { *(.data .data.* .sdata .sdata.* .got .toc .branch_lt .iplt) } > ram : data
        /* It stands last, so the image ends before it: RAM behind an image is zeros. */
        .bss (NOLOAD) : ALIGN(64) { *(.bss .bss.* .sbss .sbss.* COMMON) } > ram : data
        end_of_program = .;
        stack_top = ORIGIN(ram) + LENGTH(ram);
        ASSERT(start == 0, "the start file doesn't stand at 0")
        ASSERT(end_of_program + 64K <= stack_top, "no room for the stack")
}
