; x - y without its sign
mov64 r0, r1
sub64 r0, r2
jsge64 r1, r2, 1
neg64 r0
exit
