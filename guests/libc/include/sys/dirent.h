/* Directories, which the machine doesn't have: what opens one sets ENOSYS. picolibc's dirent.h declares the functions. */
#ifndef _SYS_DIRENT_H
#define _SYS_DIRENT_H

#include <sys/types.h>

struct dirent {
    ino_t d_ino;
    unsigned char d_type;
    char d_name[256];
};

typedef struct directory DIR;

#endif
