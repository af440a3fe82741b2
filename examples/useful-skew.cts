cts 2
# two pipeline stages of four flip-flops each; a timing step asks for the edges of 12, 13 and 22 early by 15, 5 and 10 ps,
# so that the paths that begin there get as much more time, and those that end there as much less
die 0 0 2000 1200
source 0 600 30
wire 0.1 0.2
limits 150 400 60
buffers 2
buffer 35 61.2 24.5
buffer 80 30 20
sinks 8
sink 11 300 200 30 0
sink 12 420 260 30 15
sink 13 310 900 28 5
sink 14 450 980 30 0
sink 21 1500 240 32 0
sink 22 1620 330 30 10
sink 23 1540 880 28 0
sink 24 1700 960 30 0
blocks 1
block buffer 900 500 1100 700
end
