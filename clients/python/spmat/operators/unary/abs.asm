; x without its sign; the least number stays as it is
mov64 r0, r1
jsge64 r0, 0, 1
neg64 r0
exit
