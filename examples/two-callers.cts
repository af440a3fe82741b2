cts 1
die 0 0 20 20
source 0 0 0
wire 1 1
limits 100 100 100
buffers 0
sinks 2
sink 1 0 0 5
sink 2 10 0 10
blocks 0
end
callers 2
1 cap 1 10
1 tree
1 tree
2 remove 7
end
