; x - y
mov64 r0, r1
sub64 r0, r2
exit
