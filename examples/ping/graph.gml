graph [
  directed 0
  node [
    id 0
    label "client"
    host_bandwidth_up "10 Mbit"
    host_bandwidth_down "50 Mbit"
  ]
  node [
    id 1
    label "server"
    host_bandwidth_up "100 Mbit"
    host_bandwidth_down "100 Mbit"
  ]
  edge [
    source 0
    target 1
    latency "30 ms"
    packet_loss 0.1
  ]
]
