/* Error numbers and their texts, and functions whose call the machine doesn't have. */
#include <dirent.h>
#include <errno.h>
#include <fcntl.h>
#include <glob.h>
#include <ifaddrs.h>
#include <net/if.h>
#include <signal.h>
#include <spawn.h>
#include <stdio.h>
#include <string.h>
#include <sys/mman.h>
#include <sys/signalfd.h>
#include <sys/socket.h>
#include <sys/stat.h>
#include <sys/utsname.h>
#include <sys/wait.h>
#include <unistd.h>

static void texts(void)
{
    static const int numbers[] = {ENOENT, EAGAIN, EDEADLK, ENOSYS, ENOTSOCK, EADDRINUSE, ECONNRESET, ETIMEDOUT, EINPROGRESS};

    for (size_t at = 0; at < sizeof numbers / sizeof *numbers; at++)
        printf("%d %s\n", numbers[at], strerror(numbers[at]));
    printf("%s, %s, ", strerror(0), strerror(41));
    printf("%s\n", strerror(-1));
    errno = EHOSTUNREACH;
    perror("perror");
}

static void tell(const char *name, long answer)
{
    printf("%s: %ld %s\n", name, answer, strerror(errno));
    errno = 0;
}

/* what the machine refuses comes as Linux's number */
static void refused(void)
{
    char text[4];

    tell("read", read(7, text, 4));
    tell("write", write(1, NULL, 4));
    tell("open", open("/etc/passwd", O_RDONLY));
    tell("socket", socket(AF_INET6, SOCK_STREAM, 0));
    tell("bind", bind(0, NULL, 0));
    tell("fcntl", fcntl(1, F_DUPFD, 3));
    tell("getsockopt", getsockopt(socket(AF_INET, SOCK_DGRAM, 0), SOL_SOCKET, SO_RCVBUF, text, &(socklen_t){4}));
    tell("kill", kill(getpid(), 0));
    tell("kill", kill(getpid(), 99));
}

static void without_a_call(void)
{
    struct stat about;
    struct utsname names;
    struct ifaddrs *addresses;
    glob_t paths;
    fpos_t place;
    int status;

    tell("fork", fork());
    tell("waitpid", waitpid(-1, &status, 0));
    tell("execve", execve("/bin/true", NULL, NULL));
    tell("dup", dup(1));
    tell("fstat", fstat(1, &about));
    tell("lseek", (long)lseek(0, 0, SEEK_SET));
    tell("unlink", unlink("/etc/hosts"));
    tell("mkdir", mkdir("/new", 0700));
    tell("getcwd", getcwd(NULL, 0) != NULL);
    tell("alarm", (long)(int)alarm(1));
    tell("socketpair", socketpair(AF_UNIX, SOCK_STREAM, 0, (int[2]){0}));
    tell("kill", kill(1, SIGTERM));
    tell("mmap", (long)mmap(NULL, 4096, PROT_READ, MAP_PRIVATE | MAP_ANONYMOUS, -1, 0));
    tell("opendir", opendir("/") != NULL);
    tell("uname", uname(&names));
    tell("if_nametoindex", (long)if_nametoindex("lo"));
    tell("getifaddrs", getifaddrs(&addresses));
    tell("signalfd", signalfd(-1, &(sigset_t){0}, SFD_NONBLOCK));
    tell("glob", glob("/*", 0, NULL, &paths));
    tell("fgetpos", fgetpos(stdin, &place));
    tell("posix_spawn", posix_spawn(NULL, "/bin/true", NULL, NULL, NULL, NULL));
}

/* a mask of signals is kept, and holds nothing back */
static void masks(void)
{
    sigset_t terminate, old;

    sigemptyset(&terminate);
    sigaddset(&terminate, SIGTERM);
    tell("sigprocmask", sigprocmask(SIG_BLOCK, &terminate, NULL));
    tell("sigprocmask", sigprocmask(SIG_UNBLOCK, &terminate, &old));
    tell("sigismember", sigismember(&old, SIGTERM) != 0);
    tell("sigprocmask", sigprocmask(77, &terminate, NULL));
}

int main(void)
{
    texts();
    refused();
    without_a_call();
    masks();
    return 0;
}
