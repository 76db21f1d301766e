; x + y
mov64 r0, r1
add64 r0, r2
exit
