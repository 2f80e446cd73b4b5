/* What windows.c takes from kernel32.dll: the import table that Windows reads and fills, by the chapter "The .idata Section"
   of the PE/COFF specification. The tables name places by their RVA, the address less that of the image, and the seven
   symbols of apetool tell where they are. Labels that begin with .L aren't kept. */

        .globl  ape_image_base, ape_idata, ape_idata_end, ape_iat, ape_iat_end

/* The image's address: a multiple of 65536, and at least 8192 below the page of the program's first load. GNU ld puts that
   load at 0x400000. */
        .set    ape_image_base, 0x3f0000

/* The functions, with what is done for each. */
        .macro  each what
        \what   ExitProcess
        \what   GetCommandLineA
        \what   GetStdHandle
        \what   WriteFile
        .endm

        .macro  lookup function
        .quad   .Lname_\function - ape_image_base
        .endm

        .macro  address function        /* a word as in the lookup table, until Windows writes the function's address */
        .globl  \function
\function:
        lookup  \function
        .endm

        .macro  name function
        .balign 2
.Lname_\function:
        .short  0                       /* the hint: none */
        .asciz  "\function"
        .endm

        .data
        .balign 8

ape_idata:                              /* the directory: an entry of five numbers for each DLL, and one of zeros */
        .long   .Llookup - ape_image_base
        .long   0, 0
        .long   .Ldll - ape_image_base
        .long   ape_iat - ape_image_base
        .zero   20
ape_idata_end:

        .balign 8
.Llookup:
        each    lookup
        .quad   0

ape_iat:
        each    address
        .quad   0
ape_iat_end:

.Ldll:
        .asciz  "KERNEL32.dll"
        each    name

        .section .note.GNU-stack, "", %progbits
