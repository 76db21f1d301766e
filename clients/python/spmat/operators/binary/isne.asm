; 1 where x is not y, else 0: the same as ne
mov64 r0, 1
jne64 r1, r2, 1
mov64 r0, 0
exit
