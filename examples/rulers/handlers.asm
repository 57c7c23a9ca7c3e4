; Two commands that repeat a block. `keycheck assemble handlers.asm` writes handlers.json.

.handler rulers.line            ; types a line of 80 dashes
    repeat 8
        text "----------"
        call type
    end
    return

.handler rulers.count           ; types the numbers from 1 to 5, with spaces between them
    num 0                       ; number
    repeat 5                    ; number
        num 1                   ; number 1
        add                     ; number, one more
        dup                     ; number number
        show                    ; number text
        text " "                ; number text " "
        join                    ; number text
        call type               ; number
    end
    return
