// Pairs of hosts in ns-3, each with a line of 1 Gbit/s and 10 ms of its own, over which one sends so many bytes to the
// other by TCP: segments of 1,460 bytes, a window of 65,535, each segment acknowledged at once, and no option but the
// segment size. Prints how many bytes came in all, and the seconds until the run begins and for the run.
#include "ns3/core-module.h"
#include "ns3/internet-module.h"
#include "ns3/network-module.h"
#include "ns3/point-to-point-module.h"

#include <chrono>
#include <cstdlib>
#include <iostream>
#include <map>

using namespace ns3;

static const uint16_t PORT = 80;
static uint64_t received = 0;
static std::map<Ptr<Socket>, uint64_t> left;

static void Fill(Ptr<Socket> socket, uint32_t)
{
    uint64_t &rest = left[socket];
    while (rest > 0) {
        uint32_t room = std::min<uint64_t>({rest, socket->GetTxAvailable(), 4096});
        if (room == 0 || socket->Send(Create<Packet>(room)) <= 0)
            return;
        rest -= room;
    }
    socket->Close();
}

static void Connected(Ptr<Socket> socket)
{
    Fill(socket, 0);
}

static void Receive(Ptr<Socket> socket)
{
    while (Ptr<Packet> packet = socket->Recv())
        received += packet->GetSize();
}

static void Closed(Ptr<Socket> socket)
{
    socket->Close();
}

static void Accepted(Ptr<Socket> socket, const Address &)
{
    socket->SetRecvCallback(MakeCallback(&Receive));
    socket->SetCloseCallbacks(MakeCallback(&Closed), MakeCallback(&Closed));
}

static void Start(Ptr<Socket> socket, InetSocketAddress to)
{
    socket->Connect(to);
}

int main(int argc, char **argv)
{
    auto begun = std::chrono::steady_clock::now();
    uint32_t count = argc > 1 ? std::atoi(argv[1]) : 1;
    uint64_t bytes = argc > 2 ? std::atoll(argv[2]) : 1000000;
    Config::SetDefault("ns3::TcpSocket::SegmentSize", UintegerValue(1460));
    Config::SetDefault("ns3::TcpSocket::RcvBufSize", UintegerValue(65535));
    Config::SetDefault("ns3::TcpSocket::SndBufSize", UintegerValue(65535));
    Config::SetDefault("ns3::TcpSocket::DelAckCount", UintegerValue(1));
    Config::SetDefault("ns3::TcpSocketBase::WindowScaling", BooleanValue(false));
    Config::SetDefault("ns3::TcpSocketBase::Sack", BooleanValue(false));
    Config::SetDefault("ns3::TcpSocketBase::Timestamp", BooleanValue(false));
    NodeContainer nodes(2 * count);
    InternetStackHelper internet;
    internet.SetIpv6StackInstall(false);
    internet.Install(nodes);
    Ipv4AddressHelper addresses("10.0.0.0", "255.255.255.252");
    for (uint32_t i = 0; i < count; i++) {
        PointToPointHelper line;
        line.SetDeviceAttribute("DataRate", StringValue("1Gbps"));
        line.SetChannelAttribute("Delay", StringValue("10ms"));
        NetDeviceContainer ends = line.Install(nodes.Get(2 * i), nodes.Get(2 * i + 1));
        Ipv4Address to = addresses.Assign(ends).GetAddress(1);
        addresses.NewNetwork();
        Ptr<Socket> listener = Socket::CreateSocket(nodes.Get(2 * i + 1), TcpSocketFactory::GetTypeId());
        listener->Bind(InetSocketAddress(Ipv4Address::GetAny(), PORT));
        listener->Listen();
        listener->SetAcceptCallback(MakeNullCallback<bool, Ptr<Socket>, const Address &>(), MakeCallback(&Accepted));
        Ptr<Socket> sender = Socket::CreateSocket(nodes.Get(2 * i), TcpSocketFactory::GetTypeId());
        left[sender] = bytes;
        sender->SetConnectCallback(MakeCallback(&Connected), MakeNullCallback<void, Ptr<Socket>>());
        sender->SetSendCallback(MakeCallback(&Fill));
        Simulator::ScheduleWithContext(2 * i, Seconds(0), &Start, sender, InetSocketAddress(to, PORT));
    }
    auto ready = std::chrono::steady_clock::now();
    Simulator::Stop(Seconds(200));
    Simulator::Run();
    auto ended = std::chrono::steady_clock::now();
    std::cout << received << ' ' << std::chrono::duration<double>(ready - begun).count() << ' '
              << std::chrono::duration<double>(ended - ready).count() << std::endl;
    left.clear();
    Simulator::Destroy();
    return 0;
}
