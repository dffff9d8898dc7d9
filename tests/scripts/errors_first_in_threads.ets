% Reports what is known before any process runs first, with --threads.
q receive()
spawn p
spawn p
p receive()
exit p
p receive()
