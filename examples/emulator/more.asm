; more.asm: segment 2 of TEST.EXE, code that is moveable and discardable and isn't loaded before it is called.
%include "ne.inc"
        times 300 nop           ; TWICE and MATH's SUM are at one offset, and their segments are of one size

twice:  push ax
        OWN 1                   ; BACK, in segment 1
        pop ax
        shl ax, 1
        retf

secret: push ds
        SEGMENT_TO_AX 3
        mov ds, ax
        mov ax, [0x10]
        pop ds
        retf

; Discards all that may be: this code too, which the call then comes back to.
purge:  PASS -1, -1
        KERNEL GlobalCompact
        mov ax, 0x5678
        retf

        times 352 - ($-$$) nop

        ENTRY 2, 'TWICE', twice
        ENTRY 3, 'SECRET', secret
        ENTRY 4, 'PURGE', purge
END_OF_SEGMENT
