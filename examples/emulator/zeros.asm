; zeros.asm: the data of MATH.DLL.
%include "ne.inc"
        times 64 db 0
END_OF_SEGMENT
