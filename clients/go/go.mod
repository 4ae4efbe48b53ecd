module cinoweta

go 1.19
