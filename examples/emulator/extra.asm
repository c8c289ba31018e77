; extra.asm: the code of EXTRA.DLL, which TEST.EXE loads while it runs. It is moveable: it calls MATH's code, and may move when that is fetched.
%include "ne.inc"
triple: push ax
        PASS ax, ax
        IMPORTED 'O', 'MATH', 1
        pop bx
        add ax, bx
        retf
        times 900 nop

        ENTRY 7, 'TRIPLE', triple
END_OF_SEGMENT
