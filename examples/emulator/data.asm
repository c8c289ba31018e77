; data.asm: the automatic data segment of TEST.EXE. Its stack and its heap come after these bytes.
%include "ne.inc"
        times 0x10 db 0
        dw 0x1234               ; secret
        db 'EXTRA.DLL', 0       ; extra_file, 0x12
        db 'TRIPLE', 0          ; triple_name, 0x1c
        db 'MATH', 0            ; math_name, 0x23
        times 0x200 - ($-$$) db 0
END_OF_SEGMENT
