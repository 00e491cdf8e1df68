/* Who is at a server's file, told by locks of its bytes. */

#include "file_locks.h"

#include <errno.h>
#include <fcntl.h>
#include <stdio.h>
#include <string.h>
#include <sys/stat.h>
#include <unistd.h>

#include "processes.h"

/* The bytes. A file may be shorter than what is locked of it. */
enum { SERVERS = 0, RUNS = 1 };

/* Locks or unlocks a byte by a command of fcntl(2): F_SETLK has it for the process, F_OFD_SETLK for this opening of the file, which a process may
 * have several of, and its children with it. */
static bool byte_set(int opened, int command, short type, off_t byte)
{
    struct flock lock = {.l_type = type, .l_whence = SEEK_SET, .l_start = byte, .l_len = 1};
    return fcntl(opened, command, &lock) == 0;
}

/* Whether the open file is the one that has this name now. */
static bool has_name(int opened, const char *file)
{
    struct stat one, other;
    return fstat(opened, &one) == 0 && stat(file, &other) == 0 && one.st_dev == other.st_dev && one.st_ino == other.st_ino;
}

bool nolthewyr_locked_by_server(int opened)
{
    return byte_set(opened, F_SETLK, F_WRLCK, SERVERS);
}

bool nolthewyr_runs_kept_out(int opened, char *who)
{
    if (byte_set(opened, F_SETLK, F_WRLCK, RUNS))
        return true;
    nolthewyr_processes_named(opened, who);
    return false;
}

long nolthewyr_server_of(int opened)
{
    struct flock lock = {.l_type = F_RDLCK, .l_whence = SEEK_SET, .l_start = SERVERS, .l_len = 1};
    return fcntl(opened, F_GETLK, &lock) == 0 && lock.l_type != F_UNLCK ? (long)lock.l_pid : 0;
}

long nolthewyr_server_process(const char *file)
{
    int opened = open(file, O_RDONLY | O_CLOEXEC);
    if (opened < 0)
        return 0;
    long process = nolthewyr_server_of(opened);
    close(opened);
    return process;
}

/* Whether it serves on this machine, where the locks of its file can be seen. */
static bool here(const nolthewyr_server *server)
{
    return nolthewyr_server_over_memory(server) || server->host[0] == '\0' || strcmp(server->host, "127.0.0.1") == 0;
}

/* Whether the run may go on with the file that is open. A file of a server elsewhere is a copy, of which nobody looks at the locks. */
static bool joined(nolthewyr_server *server, int opened, const char *file, char *error)
{
    bool locked = byte_set(opened, F_OFD_SETLK, F_RDLCK, RUNS);
    const char *why = locked ? "" : strerror(errno);
    if (!nolthewyr_server_read(server, opened, file, error))
        return false;
    if (!here(server))
        return true;
    if (!locked)
        snprintf(error, NOLTHEWYR_ERROR_SIZE, "%s: it cannot be locked (%s): a server is being started or ended on it, or its file system has no locks",
                 file, why);
    else if (!has_name(opened, file))
        snprintf(error, NOLTHEWYR_ERROR_SIZE, "%s: a server has been started or ended on it just now: try again", file);
    else if (nolthewyr_server_of(opened) == 0)
        snprintf(error, NOLTHEWYR_ERROR_SIZE, "%s: the server that wrote it has ended or died, or this is a copy: start the server anew,"
                 " or name the file that it wrote", file);
    else
        return true;
    return false;
}

int nolthewyr_joined(nolthewyr_server *server, const char *file, char *error)
{
    int opened = open(file, O_RDONLY | O_CLOEXEC);
    if (opened < 0) {
        snprintf(error, NOLTHEWYR_ERROR_SIZE, "%s: %s%s", file, strerror(errno),
                 errno == ENOENT ? ": no server has written it, or it has ended" : "");
        return -1;
    }
    if (joined(server, opened, file, error))
        return server->file = opened;
    close(opened);
    return -1;
}

void nolthewyr_parted(int opened)
{
    byte_set(opened, F_OFD_SETLK, F_UNLCK, RUNS);
    close(opened);
}

int nolthewyr_server_left(const char *file, char *error)
{
    long process = nolthewyr_server_process(file);
    int opened = open(file, O_RDWR | O_CLOEXEC);
    if (process != 0)
        snprintf(error, NOLTHEWYR_ERROR_SIZE, "%s: process %ld serves it", file, process);
    else if (opened < 0)
        snprintf(error, NOLTHEWYR_ERROR_SIZE, "%s: %s", file, strerror(errno));
    else if (!nolthewyr_locked_by_server(opened) || !has_name(opened, file))
        snprintf(error, NOLTHEWYR_ERROR_SIZE, "%s: another server is being started or ended on it", file);
    else
        return opened;
    if (opened >= 0)
        close(opened);
    return -1;
}

bool nolthewyr_server_remove(int opened, const char *file)
{
    return has_name(opened, file) && unlink(file) == 0;
}
