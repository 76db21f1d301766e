; j + t
mov64 r0, r3
add64 r0, r4
exit
