cts 1
# a sink that blocks fence in
die 0 0 20 20
source 0 5 0
wire 1 1
limits 100 100 100
buffers 0
sinks 1
sink 1 10 10 5
blocks 4
block all 7 7 9 13
block all 11 7 13 13
block all 7 7 13 9
block all 7 11 13 13
end
