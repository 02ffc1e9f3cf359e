graph [
node [ id 0 host_bandwidth_up "1 Gbit" host_bandwidth_down "1 Gbit" ]
{open}{shut}
y {ones}
]
