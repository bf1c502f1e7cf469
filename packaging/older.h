// For a build of the driver that starts over a C library as old as Debian 11's too: what newer headers make of some
// calls is asked for in a form that the older one has. packaging/older.py does the rest on what was linked.
#ifndef CLSIM_OLDER_H
#define CLSIM_OLDER_H
#ifndef _GNU_SOURCE
#define _GNU_SOURCE
#endif
#include <spawn.h>
#include <sys/stat.h>

// `fstat`, `stat` and `lstat` were no symbols of the library before 2.33; these are in all.
int clsim_fxstat(int version, int fd, struct stat *about);
int clsim_xstat(int version, const char *path, struct stat *about);
int clsim_lxstat(int version, const char *path, struct stat *about);
__asm__(".symver clsim_fxstat, __fxstat@GLIBC_2.2.5");
__asm__(".symver clsim_xstat, __xstat@GLIBC_2.2.5");
__asm__(".symver clsim_lxstat, __lxstat@GLIBC_2.2.5");
#define fstat(fd, about) clsim_fxstat(1, fd, about)
#define stat(path, about) clsim_xstat(1, path, about)
#define lstat(path, about) clsim_lxstat(1, path, about)

// Since 2.34: a child then gets no descriptor of the client. Before, it gets those that aren't closed by themselves.
#if __GLIBC_PREREQ(2, 34)
extern __typeof__(posix_spawn_file_actions_addclosefrom_np) posix_spawn_file_actions_addclosefrom_np
    __attribute__((weak));
static inline int clsim_close_from(posix_spawn_file_actions_t *actions, int first) {
    if (!posix_spawn_file_actions_addclosefrom_np) return 0;
    return posix_spawn_file_actions_addclosefrom_np(actions, first);
}
#define posix_spawn_file_actions_addclosefrom_np clsim_close_from
#endif
#endif
