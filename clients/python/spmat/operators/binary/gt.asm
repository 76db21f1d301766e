; 1 where x is greater than y, else 0
mov64 r0, 1
jsgt64 r1, r2, 1
mov64 r0, 0
exit
