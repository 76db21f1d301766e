; x, so that select keeps what is not 0
mov64 r0, r1
exit
