cts 1
# four flip-flops far from the clock source, and a region on the way that holds no buffer
die 0 0 6000 3000
source 0 1500 30
wire 0.1 0.2
limits 150 400 60
buffers 2
buffer 35 61.2 24.5
buffer 80 30 20
sinks 4
sink 1 5400 1300 30
sink 2 5550 1420 28
sink 3 5500 1800 30
sink 4 5620 1710 32
blocks 1
block buffer 1400 1000 1700 2000
end
