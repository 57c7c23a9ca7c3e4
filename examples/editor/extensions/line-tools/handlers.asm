; Line Tools. A handler that calls one of another extension gives its budget and its depth.

.handler lineTools.rule         ; twenty hyphens, and a new line
    text ""
    repeat 20
        text "-"
        join
    end
    text "\n"
    join
    call type
    return

.handler lineTools.callOut      ; "> [!NOTE] "
.param kind text
.budget 4000
.depth 2
    text "> "
    call type
    text "[!"
    arg kind
    join
    text "] "
    call wordTools.surround
    return

.handler lineTools.clearAround  ; three characters on each side
    repeat 3
        call deleteLeft
        call deleteRight
    end
    return
