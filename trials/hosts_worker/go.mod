module hosts_worker

go 1.19

require cinoweta v0.0.0

replace cinoweta => ../../clients/go
