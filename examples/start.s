@ Where the examples start: a stack, a call of main, and the end of the run.
        .arm
        .globl  _start
        .type   _start, %function
_start: mov     sp, #0x20000
        bl      main
        svc     0
