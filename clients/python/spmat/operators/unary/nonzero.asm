; 1 where x is not 0, else 0
mov64 r0, 1
jne64 r1, 0, 1
mov64 r0, 0
exit
