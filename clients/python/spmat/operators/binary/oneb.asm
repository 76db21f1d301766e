; 1: the same as pair
mov64 r0, 1
exit
