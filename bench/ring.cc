// The ring of `shadow --self-load N` in ns-3: N hosts, host i with a line of 1 Gbit/s and 1 + i mod 7 ms to host i + 1
// that loses all where i mod 4 is 3. Each host binds UDP port 7000, sends 64 bytes to the next one's ten times, 10 ms
// apart, and counts what comes. Prints the counts, and the seconds until the run begins and for the run.
#include "ns3/core-module.h"
#include "ns3/internet-module.h"
#include "ns3/network-module.h"
#include "ns3/point-to-point-module.h"

#include <chrono>
#include <cstdlib>
#include <iostream>
#include <vector>

using namespace ns3;

static const uint16_t PORT = 7000;
static uint64_t sent = 0, lost = 0, received = 0;

static void Send(Ptr<Socket> socket, InetSocketAddress next, int left)
{
    if (socket->SendTo(Create<Packet>(64), 0, next) == 64)
        sent++;
    if (left > 1)
        Simulator::Schedule(MilliSeconds(10), &Send, socket, next, left - 1);
}

static void Receive(Ptr<Socket> socket)
{
    while (socket->Recv())
        received++;
}

static void Lose(Ptr<const Packet>)
{
    lost++;
}

int main(int argc, char **argv)
{
    auto begun = std::chrono::steady_clock::now();
    uint32_t count = argc > 1 ? std::atoi(argv[1]) : 4;
    NodeContainer nodes(count);
    InternetStackHelper internet;
    internet.SetIpv6StackInstall(false);
    internet.Install(nodes);
    Ipv4AddressHelper addresses("10.0.0.0", "255.255.255.252");
    std::vector<Ipv4Address> next(count);
    for (uint32_t i = 0; i < count; i++) {
        PointToPointHelper line;
        line.SetDeviceAttribute("DataRate", StringValue("1Gbps"));
        line.SetChannelAttribute("Delay", TimeValue(MilliSeconds(1 + i % 7)));
        NetDeviceContainer ends = line.Install(nodes.Get(i), nodes.Get((i + 1) % count));
        next[i] = addresses.Assign(ends).GetAddress(1);
        addresses.NewNetwork();
        if (i % 4 == 3) {
            Ptr<RateErrorModel> all = CreateObject<RateErrorModel>();
            all->SetUnit(RateErrorModel::ERROR_UNIT_PACKET);
            all->SetRate(1.0);
            ends.Get(1)->SetAttribute("ReceiveErrorModel", PointerValue(all));
            ends.Get(1)->TraceConnectWithoutContext("PhyRxDrop", MakeCallback(&Lose));
        }
    }
    for (uint32_t i = 0; i < count; i++) {
        Ptr<Socket> socket = Socket::CreateSocket(nodes.Get(i), UdpSocketFactory::GetTypeId());
        socket->Bind(InetSocketAddress(Ipv4Address::GetAny(), PORT));
        socket->SetRecvCallback(MakeCallback(&Receive));
        Simulator::ScheduleWithContext(i, Seconds(0), &Send, socket, InetSocketAddress(next[i], PORT), 10);
    }
    auto ready = std::chrono::steady_clock::now();
    Simulator::Stop(Seconds(5));
    Simulator::Run();
    auto ended = std::chrono::steady_clock::now();
    std::cout << sent << ' ' << lost << ' ' << received << ' '
              << std::chrono::duration<double>(ready - begun).count() << ' '
              << std::chrono::duration<double>(ended - ready).count() << std::endl;
    Simulator::Destroy();
    return 0;
}
