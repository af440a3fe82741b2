cts 1
# twelve flip-flops in three clusters, a macro that no wire may cross, and a region that holds no buffer
die 0 0 4000 3000
source 0 1500 30
wire 0.1 0.2
limits 150 400 60
buffers 2
buffer 35 61.2 24.5
buffer 80 30 20
sinks 12
sink 101 600 400 30
sink 102 750 520 28
sink 103 640 700 30
sink 104 820 610 32
sink 201 3200 500 35
sink 202 3350 420 35
sink 203 3480 640 30
sink 204 3300 760 28
sink 301 2600 2400 30
sink 302 2750 2550 30
sink 303 2900 2350 35
sink 304 2820 2700 28
blocks 2
block all 1500 900 2300 2100
block buffer 2900 200 3600 900
end
