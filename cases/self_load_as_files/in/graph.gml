graph [
  directed 1
  node [ id 0 ]
  node [ id 1 ]
  edge [ source 0 target 1 latency "1 ms" packet_loss 0.0 ]
  edge [ source 1 target 0 latency "2 ms" packet_loss 0.0 ]
]
