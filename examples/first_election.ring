ring 3
stand 1 red 5 10
stand 2 red 5 30
stand 3 red 5 20
deliver all
who 1 red 5
who 2 red 5
who 3 red 5
