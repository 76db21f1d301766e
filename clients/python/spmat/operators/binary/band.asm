; bitwise and
mov64 r0, r1
and64 r0, r2
exit
