; 1
mov64 r0, 1
exit
