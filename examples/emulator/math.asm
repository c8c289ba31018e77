; math.asm: the code of MATH.DLL, moveable and discardable. It counts in data of its own.
%include "ne.inc"
        times 300 nop

sum:    push bp
        mov bp, sp
        mov ax, [bp+6]
        add ax, [bp+8]
        pop bp
        retf 4

count:  push ds
        SEGMENT_TO_AX 2
        mov ds, ax
        inc word [0]
        mov ax, [0]
        pop ds
        retf

        times 352 - ($-$$) nop

        ENTRY 1, 'SUM', sum
        ENTRY 2, 'COUNT', count
END_OF_SEGMENT
