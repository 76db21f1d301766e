; j - i + t
mov64 r0, r3
sub64 r0, r2
add64 r0, r4
exit
