; x: the same as first
mov64 r0, r1
exit
