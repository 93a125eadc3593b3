mov64 r0, 1
call_local routine
mov64 r0, 2
exit
routine:
call 3
exit
