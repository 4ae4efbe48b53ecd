ring 3 lazy
stand 1 red 5 10
stop 1 3 fill 1
stand 1 red 5 10
flush 1
who 1 red 5
