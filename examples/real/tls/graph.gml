graph [
  node [ id 0 label "client" host_bandwidth_up "2 Mbit" host_bandwidth_down "10 Mbit" ]
  node [ id 1 label "server" host_bandwidth_up "100 Mbit" host_bandwidth_down "100 Mbit" ]
  edge [ source 0 target 1 latency "20 ms" packet_loss 0.02 ]
]
