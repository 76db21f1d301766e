; y - x
mov64 r0, r2
sub64 r0, r1
exit
