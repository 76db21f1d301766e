; t
mov64 r0, r4
exit
