# a comment [
Creator "any
# text"
graph [ directed +1 x [ node [ id 9 ] x [ x [ x [ x [ x [ x [ x [ x [ x [ x [ x [ x [ x [ x [ ] ] ] ] ] ] ] ] ] ] ] ] ] ] ] 
  node[id 0 host_bandwidth_up"1 Kibit"label[ ] y 2.5E-3]
    # another
edge [ target 4294967295 source 0 jitter "3 us" latency "1 h" ]
  node [ host_bandwidth_down "8" id 4294967295 ]
edge[label 7 latency"2 ns"packet_loss 0 target 0 source 4294967295]
]