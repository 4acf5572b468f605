#ifndef MEMCAD_ERRNO_H
#define MEMCAD_ERRNO_H
#define ENOMEM 12
#define EINVAL 22
#define ENOENT 2
extern int errno;
#endif
