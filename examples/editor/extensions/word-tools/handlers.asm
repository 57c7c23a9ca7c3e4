; Word Tools. `keycheck assemble handlers.asm > handlers.json` writes the file that is loaded.

.handler wordTools.surround     ; types a pair, and goes between
.param opening text
.param closing text
    arg opening
    arg closing
    join
    call type
    arg closing
    istrue
    jfalse none                 ; there is nothing to go back over
    call cursorLeft
none:
    return

.handler wordTools.heading      ; types one, two or three hash signs
.param level number
    arg level
    num 2
    less
    jfalse second
    text "# "
    jump typed
second:
    arg level
    num 3
    less
    jfalse third
    text "## "
    jump typed
third:
    text "### "
typed:
    call type
    return

.handler wordTools.checkBox     ; checked where the key `wordTools.checked` holds
    context wordTools.checked
    istrue
    jfalse open
    text "- [x] "
    call type
    return
open:
    text "- [ ] "
    call type
    return

.handler wordTools.position     ; "12 of 40"
    before
    show
    text " of "
    join
    before
    after
    add
    show
    join
    call type
    return
