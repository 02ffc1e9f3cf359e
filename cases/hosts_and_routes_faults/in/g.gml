graph [
  node [ id 0 host_bandwidth_up "1 Mbit" host_bandwidth_down "1 Mbit" ]
  node [ id 4294967295 host_bandwidth_up "1 Mbit" ]
  node [ id 3 host_bandwidth_up "1 Mbit" host_bandwidth_down "1 Mbit" ]
  edge [ source 0 target 0 latency "1 ms" ]
]
