@ Counts from ten to zero: the program of image.elf, which is these four words at 0x8000 behind the headers of an ELF file.
        mov     r0, #10
again:  subs    r0, r0, #1
        bne     again
        svc     #0
