#ifndef _SYS_IOCTL_H
#define _SYS_IOCTL_H

#define FIONREAD 0x541b
#define FIONBIO 0x5421
#define SIOCGIFCONF 0x8912
#define SIOCGIFFLAGS 0x8913
#define SIOCGIFADDR 0x8915
#define SIOCGIFMTU 0x8921
#define SIOCGIFINDEX 0x8933
#define TIOCGWINSZ 0x5413

int ioctl(int fd, unsigned long request, ...);

#endif
