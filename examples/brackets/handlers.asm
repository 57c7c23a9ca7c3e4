; Three commands that type brackets. `keycheck assemble handlers.asm` writes handlers.json.

.handler brackets.wrap
.param text text
    text "("
    arg text
    join                        ; "(text"
    text ")"
    join                        ; "(text)"
    call type
    return

.handler brackets.pair          ; types "()", and goes between
    text ""
    call brackets.wrap
    call cursorLeft
    return

.handler brackets.at            ; types how many characters stand before the caret, if any do
    before
    istrue
    jfalse none
    before
    show
    call type
none:
    return
