; -x
mov64 r0, r1
neg64 r0
exit
