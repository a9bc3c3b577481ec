# The start of a program for several harts: each starts here, with its number in a0 and a stack of its own. Hart 0 goes to the
# start of start.s, and so to `main`; each other one does `work(number)`, and then waits, since an exit would end all.

    .text

    .globl begin
    .type begin, @function
begin:
    beqz a0, .Lfirst
    call work
.Lwaits:
    j .Lwaits
.Lfirst:
    tail _start
    .size begin, . - begin
