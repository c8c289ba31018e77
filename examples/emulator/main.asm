; main.asm: segment 1 of TEST.EXE, where it begins. DS and SS are its automatic data segment, and so is ES between the parts. A part puts what it needs
; into data of these offsets; the bytes of data.asm are used by their offsets too.
%include "ne.inc"

module  equ 0x02
secret  equ 0x10
extra_file equ 0x12
triple_name equ 0x1c
math_name equ 0x23
called  equ 0x30
heap    equ 0x32                ; where the heap begins, and where it ends
kept    equ 0x36                ; a handle, and a far pointer that is kept over compaction
kept_at equ 0x38
before  equ 0x3c                ; an address from before
hole    equ 0x40
far_heap equ 0x42               ; a selector
resource equ 0x44
place   equ 0x46
extra   equ 0x48
entry   equ 0x4a                ; a far pointer
huge    equ 0x4e
blocks  equ 0x50                ; how many bytes of handles there are
small   equ 0x52
first   equ 0x54
handles equ 0x80                ; handles or near pointers, 160 words

start:  mov [module], di
        mov [heap], sp
        mov [heap+2], sp
        add [heap+2], cx
        push ds
        pop es
        KERNEL InitTask
        or ax, ax
        CHECKS nz, "a call gets to KERNEL by an import, and comes back"
        call imports
        call second_segment
        call kept_pointer
        call fill
        call discarded_code
        call library_at_run_time
        call code_that_moves
        call empty
        call from_discarded
        call local_heap
        call growing_heap
        call a_resource
        call another_size
        call three_selectors
        mov ax, 0x4c00
        int 0x21

; A library's entries, by ordinal and by name.
imports:
        PASS 30, 12
        IMPORTED 'O', 'MATH', 1
        cmp ax, 42
        CHECKS e, "SUM by its ordinal"
        IMPORTED 'N', 'MATH', 'COUNT'
        cmp ax, 1
        CHECKS e, "COUNT by its name"
        IMPORTED 'N', 'MATH', 'COUNT'
        cmp ax, 2
        CHECKS e, "COUNT keeps its number in MATH's own data"
        SEGMENT_TO_AX 3
        mov bx, ds
        cmp ax, bx
        CHECKS e, "a record for a segment gives its selector"
        db 0xb8
.incr:  dw 0xffff
        RECORD .incr, OFFSET, 'O', 'KERNEL', AHIncr
        cmp ax, 8
        CHECKS e, "a constant of KERNEL"
        PASS ds, math_name
        KERNEL GetModuleHandle
        push ax
        KERNEL GetModuleUsage
        cmp ax, 1
        CHECKS e, "MATH has one importer"
        ret

; The second code segment isn't loaded before it is called; it calls back.
second_segment:
        mov ax, 21
        OWN 2
        cmp ax, 42
        CHECKS e, "TWICE is fetched and called"
        cmp word [called], 1
        CHECKS e, "TWICE has called back"
        OWN 3
        cmp ax, [secret]
        CHECKS e, "SECRET reads the data segment"
        ret

back:   inc word [called]
        retf

; A moveable object after a hole, filled with words. Its far pointer is kept, and it isn't locked.
kept_pointer:
        PASS 0x0042, 0, 0x1800
        KERNEL GlobalAlloc
        mov [hole], ax
        PASS 0x0042, 0, 0x3000
        KERNEL GlobalAlloc
        mov [kept], ax
        or ax, ax
        CHECKS nz, "an object of 12 KB"
        push ax
        KERNEL GlobalLock
        mov [kept_at], ax
        mov [kept_at+2], dx
        push word [kept]
        KERNEL GlobalUnlock
        les di, [kept_at]
        mov cx, 0x1800
        mov ax, 7
.next:  stosw
        add ax, 11
        loop .next
        push ds
        pop es
        push word [kept_at+2]
        KERNEL GetSelectorBase
        mov [before], ax
        mov [before+2], dx
        push word [hole]
        KERNEL GlobalFree
        or ax, ax
        CHECKS z, "the hole is freed"
        ret

; ZF where the object reads as it was written.
look_at_kept:
        push es
        les di, [kept_at]
        mov cx, 0x1800
        mov ax, 7
.next:  scasw
        jne .out
        add ax, 11
        loop .next
        xor ax, ax
.out:   pop es
        ret

; Blocks of 4 KB until there is no more, and then small ones. All that may be discarded is, and what can move has moved.
fill:   xor si, si
.next:  PASS 0x0002, 0, 0x1000
        KERNEL GlobalAlloc
        or ax, ax
        jz .full
        mov [si+handles], ax
        push ax
        KERNEL GlobalLock
        mov es, dx
        mov di, ax
        mov ax, si
        mov cx, 0x800
        rep stosw
        push word [si+handles]
        KERNEL GlobalUnlock
        add si, 2
        cmp si, 320
        jb .next
.full:  mov [blocks], si
        push ds
        pop es
.small: PASS 0x0002, 0, 0x100
        KERNEL GlobalAlloc
        or ax, ax
        jz .none
        inc word [small]
        jmp .small
.none:  cmp si, 40
        CHECKS a, "more than 20 blocks fit"
        cmp word [small], 16
        CHECKS b, "fewer than 16 small ones fit after them"
        SEGMENT_TO_AX 2
        push ax
        KERNEL GlobalHandle
        push ax
        KERNEL GlobalFlags
        and ax, 0x4100
        cmp ax, 0x4100
        CHECKS e, "the second segment is discarded"
        call look_at_kept
        CHECKS e, "the kept pointer reads the same after compaction"
        push word [kept_at+2]
        KERNEL GetSelectorBase
        cmp ax, [before]
        CHECKS ne, "its object has moved"
        ret

; Two blocks go, and the discarded code is called: it is fetched to where there is room, and its records are applied again.
discarded_code:
        push word [handles+4]
        KERNEL GlobalFree
        mov [handles+4], ax
        push word [handles+8]
        KERNEL GlobalFree
        mov [handles+8], ax
        mov ax, 1000
        OWN 2
        cmp ax, 2000
        CHECKS e, "discarded code is called"
        cmp word [called], 2
        CHECKS e, "and calls back"
        PASS 1, 2
        IMPORTED 'O', 'MATH', 1
        cmp ax, 3
        CHECKS e, "discarded code of a library is called"
        IMPORTED 'N', 'MATH', 'COUNT'
        cmp ax, 3
        CHECKS e, "the library's data stayed"
        ret

; A library is loaded, and an entry of it is found by its name.
library_at_run_time:
        push word [handles+12]
        KERNEL GlobalFree
        mov [handles+12], ax
        PASS ds, extra_file
        KERNEL LoadLibrary
        mov [extra], ax
        cmp ax, 32
        CHECKS a, "a library is loaded"
        PASS ax, ds, triple_name
        KERNEL GetProcAddress
        mov [entry], ax
        mov [entry+2], dx
        or dx, dx
        CHECKS nz, "its entry is found by name"
        mov ax, 14
        call far [entry]
        cmp ax, 42
        CHECKS e, "its entry is called, and calls another library"
        ret

; MATH's code is discarded, and memory is filled again. Then 128 bytes below the library's code are free and 256 above it, where MATH's code has no room.
; So when the library calls that, the library itself moves down, in the middle of its call.
code_that_moves:
        PASS -1, -1
        KERNEL GlobalCompact
.next:  PASS 0x0002, 0, 0x100
        KERNEL GlobalAlloc
        or ax, ax
        jz .small
        mov [hole], ax
        jmp .next
.small: PASS 0x0002, 0, 0x20
        KERNEL GlobalAlloc
        or ax, ax
        jnz .small
        push word [entry+2]
        KERNEL GetSelectorBase
        mov [before], ax
        push word [handles]     ; a block of 4 KB below the library goes, and a fixed object takes all of that but 128 bytes
        KERNEL GlobalFree
        mov [handles], ax
        PASS 0x0000, 0, 0xf80
        KERNEL GlobalAlloc
        mov [first], ax
        push word [hole]
        KERNEL GlobalFree
        push word [handles+14]  ; a block above it, which moves too
        KERNEL GlobalLock
        mov es, dx
        push word [handles+14]
        KERNEL GlobalUnlock
        xor word [es:0], 0x5555
        mov ax, 100
        call far [entry]
        cmp ax, 300
        CHECKS e, "code that moves while its call fetches other code"
        xor word [es:0], 0x5555
        cmp word [es:0], 14
        CHECKS e, "what was written just before is kept"
        push ds
        pop es
        push word [entry+2]
        KERNEL GetSelectorBase
        cmp ax, [before]
        CHECKS ne, "it has moved"
        push word [first]
        KERNEL GlobalFree
        push word [extra]
        KERNEL FreeLibrary
        or ax, ax
        CHECKS z, "the library is freed"
        ret

; Each block that is left has the words that it was filled with. Then all go.
empty:  xor si, si
.next:  cmp word [si+handles], 0
        je .gone
        push word [si+handles]
        KERNEL GlobalLock
        mov es, dx
        mov di, ax
        mov ax, si
        mov cx, 0x800
        repe scasw
        CHECKS e, "a block reads as it was written"
        push word [si+handles]
        KERNEL GlobalUnlock
        push ds
        pop es
        push word [si+handles]
        KERNEL GlobalFree
.gone:  add si, 2
        cmp si, [blocks]
        jb .next
        call look_at_kept
        CHECKS e, "the kept pointer reads the same again"
        ret

from_discarded:
        OWN 4
        cmp ax, 0x5678
        CHECKS e, "a call comes back to code that was discarded meanwhile"
        PASS 1, 2
        IMPORTED 'O', 'MATH', 1
        cmp ax, 3
        CHECKS e, "SUM is fetched after the second segment"
        PASS -1, -1
        KERNEL GlobalCompact
        PASS 3, 4
        IMPORTED 'O', 'MATH', 1
        cmp ax, 7
        CHECKS e, "SUM is fetched to where the second segment was"
        mov ax, 5
        OWN 2
        cmp ax, 10
        CHECKS e, "and TWICE to where MATH's code was"
        ret

; The local heap under DS, in the bytes after the stack. Moveable objects slide together.
local_heap:
        PASS 0
        push word [heap]
        push word [heap+2]
        KERNEL LocalInit
        cmp ax, 1
        CHECKS e, "a local heap begins after the stack"
        xor si, si
.next:  PASS 0x0042, 0x200
        KERNEL LocalAlloc
        mov [si+handles], ax
        push ax
        KERNEL LocalLock
        mov di, ax
        or ax, ax
        CHECKS nz, "a local object"
        mov ax, si
        mov cx, 0x100
        rep stosw
        push word [si+handles]
        KERNEL LocalUnlock
        add si, 2
        cmp si, 32
        jb .next
        xor si, si
.free:  push word [si+handles]
        KERNEL LocalFree
        or ax, ax
        CHECKS z, "a local object is freed"
        add si, 4
        cmp si, 32
        jb .free
        PASS 0x1000
        KERNEL LocalCompact
        cmp ax, 0x1000
        CHECKS ae, "the local heap is compacted"
        mov si, 2
.look:  push word [si+handles]
        KERNEL LocalLock
        mov di, ax
        push ax
        KERNEL LocalHandle
        cmp ax, [si+handles]
        CHECKS e, "a near pointer leads to its handle"
        mov ax, si
        mov cx, 0x100
        repe scasw
        CHECKS e, "a local object that moved reads as it was written"
        push word [si+handles]
        KERNEL LocalUnlock
        add si, 4
        cmp si, 32
        jb .look
        ret

; A local heap of 2 KB in an object of its own gets 10 KB of objects: it grows with the object, which moves. DS is that object for LocalAlloc alone.
growing_heap:
        PASS 0x0042, 0, 0x800
        KERNEL GlobalAlloc
        push ax
        push ax
        KERNEL GlobalLock
        mov [far_heap], dx
        KERNEL GlobalUnlock
        PASS 0x0042, 0, 0x100   ; an object after it, so that it can't grow where it is
        KERNEL GlobalAlloc
        push word [far_heap]
        PASS 0x10, 0x800
        KERNEL LocalInit
        push word [far_heap]
        KERNEL GetSelectorBase
        mov [before], ax
        xor si, si
.next:  mov ds, [far_heap]
        PASS 0, 0x100
        KERNEL LocalAlloc
        push ds
        pop es
        push ss
        pop ds
        mov [si+handles], ax
        or ax, ax
        CHECKS nz, "a local object in a heap that grows"
        mov di, ax
        mov ax, si
        mov cx, 0x80
        rep stosw
        add si, 2
        cmp si, 80
        jb .next
        push word [far_heap]
        KERNEL GetSelectorBase
        cmp ax, [before]
        CHECKS ne, "the heap's segment has moved"
        xor si, si
        mov es, [far_heap]
.look:  mov di, [si+handles]
        mov ax, si
        mov cx, 0x80
        repe scasw
        CHECKS e, "an object in it reads as it was written"
        add si, 2
        cmp si, 80
        jb .look
        push ds
        pop es
        ret

; A resource of 2,000 bytes, which is discarded and read again.
a_resource:
        push word [module]
        PASS 0, 1, 0, 10
        KERNEL FindResource
        mov [place], ax
        or ax, ax
        CHECKS nz, "a resource is found"
        push word [module]
        push word [place]
        KERNEL SizeofResource
        cmp ax, 2000
        CHECKS e, "its size"
        push word [module]
        push word [place]
        KERNEL LoadResource
        mov [resource], ax
        or ax, ax
        CHECKS nz, "it is loaded"
        call look_at_resource
        PASS -1, -1
        KERNEL GlobalCompact
        push word [resource]
        KERNEL GlobalFlags
        test ax, 0x4000
        CHECKS nz, "it is discarded"
        call look_at_resource
        push word [resource]
        KERNEL FreeResource
        or ax, ax
        CHECKS z, "it is freed"
        ret

look_at_resource:
        push word [resource]
        KERNEL LockResource
        or dx, dx
        CHECKS nz, "it is locked"
        mov es, dx
        mov di, ax
        mov cx, 200
.next:  cmp word [es:di], 'He'
        jne .out
        cmp byte [es:di+9], '!'
        jne .out
        add di, 10
        loop .next
.out:   or cx, cx
        CHECKS z, "its bytes are those of the file"
        push word [resource]
        KERNEL GlobalUnlock
        push ds
        pop es
        ret

; The kept object grows and shrinks.
another_size:
        push word [kept]
        PASS 0, 0x8000, 0x0042
        KERNEL GlobalReAlloc
        cmp ax, [kept]
        CHECKS e, "an object grows"
        call look_at_kept
        CHECKS e, "and keeps its bytes"
        les di, [kept_at]
        mov di, 0x3000
        mov cx, 0x2800
        xor ax, ax
        repe scasw
        CHECKS e, "the new ones are zeros"
        push ds
        pop es
        push word [kept]
        PASS 0, 0x3000, 0x0002
        KERNEL GlobalReAlloc
        call look_at_kept
        CHECKS e, "it shrinks, and keeps the rest"
        ret

; An object of 150,000 bytes has three selectors, 8 apart. It moves when the one below it is freed.
three_selectors:
        PASS 0x0042, 2, 0x49f0
        KERNEL GlobalAlloc
        mov [huge], ax
        push ax
        KERNEL GlobalLock
        or dx, dx
        CHECKS nz, "an object of 150,000 bytes"
        mov bx, dx
        mov cx, 3
.next:  mov es, bx
        mov [es:0x10], cx
        add bx, 8
        loop .next
        push word [huge]
        KERNEL GlobalUnlock
        push word [kept]
        KERNEL GlobalFree
        PASS -1, -1
        KERNEL GlobalCompact
        push word [huge]
        KERNEL GlobalLock
        mov bx, dx
        mov cx, 3
.look:  mov es, bx
        cmp [es:0x10], cx
        CHECKS e, "a part of it reads as it was written"
        add bx, 8
        loop .look
        push ds
        pop es
        ret

        ENTRY 1, 'BACK', back
END_OF_SEGMENT
