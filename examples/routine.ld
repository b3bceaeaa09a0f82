/* Where the linker puts a routine's bytes: the code from the address that -Ttext gives; the ticket, which is in no
   memory, apart from it. Bytes of any other section would be handed in by nobody, so they are an error, those of
   .text.NAME too: they would lie behind ticket_end. What assemblers write for debuggers is left out. */
SECTIONS
{
  .text : { *(.text) }
  .ticket 0 : { *(.ticket) }
  /DISCARD/ : { *(.debug* .stab .stabstr .comment) }
  .elsewhere 0 (INFO) : { *(*) *(COMMON) }
}
ASSERT(SIZEOF(.elsewhere) == 0, "bytes outside .text: constants stand in .text, variables in the data window")
